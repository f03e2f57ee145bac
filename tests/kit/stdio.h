#ifndef KIT_STDIO_H
#define KIT_STDIO_H
#include <stdarg.h>
#include <stddef.h>
typedef struct kit_file FILE;
extern FILE *stdin, *stdout, *stderr;
#define EOF (-1)
#define SEEK_SET 0
#define SEEK_END 2
int printf(const char *, ...) __attribute__((format(printf, 1, 2)));
int fprintf(FILE *, const char *, ...) __attribute__((format(printf, 2, 3)));
int snprintf(char *, size_t, const char *, ...) __attribute__((format(printf, 3, 4)));
int vsnprintf(char *, size_t, const char *, va_list) __attribute__((format(printf, 3, 0)));
int fputs(const char *, FILE *);
int puts(const char *);
int putchar(int);
int getchar(void);
char *fgets(char *, int, FILE *);
int fflush(FILE *);
int ferror(FILE *);
FILE *fopen(const char *, const char *);
size_t fread(void *, size_t, size_t, FILE *);
size_t fwrite(const void *, size_t, size_t, FILE *);
int fseek(FILE *, long, int);
long ftell(FILE *);
int fclose(FILE *);
int remove(const char *);
int rename(const char *, const char *);
#endif
