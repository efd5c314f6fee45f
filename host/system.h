/* What the tool, its tests, second/answer.c and the examples use of the C library and the system: memory, files, printing, threads.
 *
 * Where the C library has no headers for the target (-DBARE), the declarations stand here by hand. They are
 * those of x86-64 Linux with glibc, the one target that the proved library is built for.
 */
#ifndef SYSTEM_H
#define SYSTEM_H

#include <stddef.h>
#include <stdint.h>

#ifndef BARE

#include <errno.h>
#include <fcntl.h>
#include <iconv.h>
#include <pthread.h>
#include <stdio.h>
#include <stdlib.h>
#include <string.h>
#include <sys/mman.h>
#include <time.h>
#include <unistd.h>

#else

#ifdef __cplusplus
extern "C" {
#endif

typedef struct bare_stream FILE;
extern FILE *stdin;
extern FILE *stdout;
extern FILE *stderr;
int printf(const char *format, ...);
int fprintf(FILE *stream, const char *format, ...);
int snprintf(char *buffer, size_t length, const char *format, ...);
int fputs(const char *text, FILE *stream);
int fputc(int byte, FILE *stream);
size_t fwrite(const void *items, size_t size, size_t count, FILE *stream);
int fflush(FILE *stream);
int ferror(FILE *stream);
int fclose(FILE *stream);
FILE *fopen(const char *name, const char *mode);
size_t fread(void *items, size_t size, size_t count, FILE *stream);
FILE *open_memstream(char **bytes, size_t *length);

void *malloc(size_t size);
void *calloc(size_t count, size_t size);
void *realloc(void *block, size_t size);
void free(void *block);
void exit(int status);
double strtod(const char *text, char **end);
long strtol(const char *text, char **end, int base);

int strcmp(const char *a, const char *b);
int strncmp(const char *a, const char *b, size_t length);
size_t strlen(const char *text);
void *memcpy(void *to, const void *from, size_t length);
void *memset(void *to, int byte, size_t length);
int memcmp(const void *a, const void *b, size_t length);
char *strerror(int number);
int *__errno_location(void);
#define errno (*__errno_location())
#define EINTR 4

int open(const char *name, int flags, ...);
int close(int file);
long read(int file, void *buffer, size_t length);
long write(int file, const void *buffer, size_t length);
long lseek(int file, long offset, int from);
int isatty(int file);
void *mmap(void *place, size_t length, int protection, int flags, int file, long offset);
int munmap(void *place, size_t length);
#define STDIN_FILENO 0
#define STDOUT_FILENO 1
#define STDERR_FILENO 2
#define O_RDONLY 0
#define SEEK_SET 0
#define SEEK_END 2
#define PROT_READ 1
#define MAP_PRIVATE 2
#define MAP_FAILED ((void *)-1)

typedef void *iconv_t;
iconv_t iconv_open(const char *to, const char *from);
size_t iconv(iconv_t way, char **in, size_t *in_left, char **out, size_t *out_left);
int iconv_close(iconv_t way);

struct timespec {
    long tv_sec;
    long tv_nsec;
};
#define CLOCK_REALTIME 0
int clock_gettime(int clock, struct timespec *now);

typedef unsigned long pthread_t;
typedef union {
    long words[7];
} pthread_attr_t;
typedef union {
    long words[5];
} pthread_mutex_t;
typedef union {
    long words[6];
} pthread_cond_t;
int pthread_attr_init(pthread_attr_t *attributes);
int pthread_attr_setstacksize(pthread_attr_t *attributes, size_t bytes);
int pthread_attr_destroy(pthread_attr_t *attributes);
int pthread_create(pthread_t *thread, const pthread_attr_t *attributes, void *(*start)(void *), void *given);
int pthread_join(pthread_t thread, void **answer);
int pthread_mutex_init(pthread_mutex_t *mutex, const void *attributes);
int pthread_mutex_lock(pthread_mutex_t *mutex);
int pthread_mutex_unlock(pthread_mutex_t *mutex);
int pthread_cond_init(pthread_cond_t *condition, const void *attributes);
int pthread_cond_wait(pthread_cond_t *condition, pthread_mutex_t *mutex);
int pthread_cond_timedwait(pthread_cond_t *condition, pthread_mutex_t *mutex, const struct timespec *until);
int pthread_cond_broadcast(pthread_cond_t *condition);

#ifdef __cplusplus
}
#endif

#endif
#endif
