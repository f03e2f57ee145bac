#ifndef KIT_DIRENT_H
#define KIT_DIRENT_H
/* as the C library of x86-64 Linux has it */
typedef struct kit_dir DIR;
struct dirent {
    unsigned long d_ino;
    long d_off;
    unsigned short d_reclen;
    unsigned char d_type;
    char d_name[256];
};
DIR *opendir(const char *);
struct dirent *readdir(DIR *);
int closedir(DIR *);
#endif
