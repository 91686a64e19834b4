/* The services of the library, which a program asks for by INT 0x40. docs/services.md says what each does and refuses.

   The number goes in EAX, what the service is given in EDX, ECX and EBX, and the answer comes in EAX: 0 or more, or an
   error as its number, negated. All other registers stay as they are, but at receive and pipe. */
#ifndef INC_SERVICE_H
#define INC_SERVICE_H

#include "error.h"
#include "types.h"
#include "x86.h"

#define T_SERVICE 0x40

/* any other number is answered -E_INVAL */
enum {
    SERVICE_exit = 0,
    SERVICE_cputs = 1,
    SERVICE_getid = 2,
    SERVICE_yield = 3,
    SERVICE_fork = 4,
    SERVICE_wait = 5,
    SERVICE_page_new = 6,
    SERVICE_page_drop = 7,
    SERVICE_send = 8,
    SERVICE_receive = 9,
    SERVICE_open_file = 10,
    SERVICE_close = 11,
    SERVICE_read = 12,
    SERVICE_write = 13,
    SERVICE_seek = 14,
    SERVICE_stat = 15,
    SERVICE_set_size = 16,
    SERVICE_remove = 17,
    SERVICE_sync = 18,
    SERVICE_dup = 19,
    SERVICE_pipe = 20,
    SERVICE_spawn = 21,
};

/* errors of the services on files, beside those of error.h */
enum {
    E_NO_DISK = 9,      /* the disk has no room, or the file would be too long */
    E_MAX_OPEN = 10,    /* no descriptor is free, or no place for an open file */
    E_NOT_FOUND = 11,   /* the path leads to no file */
    E_BAD_PATH = 12,    /* the path, or a name in it, is too long */
    E_FILE_EXISTS = 13, /* with O_CREAT and O_EXCL: the file is there */
    E_NOT_EXEC = 14,    /* the file is no image */
    E_NOT_SUPP = 15,    /* what the descriptor names is no file */
};

/* the most bytes of one cputs */
#define CPUTS_MAX 4096

/* flags of page_new: it may be written, it is shared */
#define PAGE_WRITE 1
#define PAGE_SHARED 2

/* ---- the program's own: where it begins. When it comes back, the environment ends. */
void umain(int argc, char **argv);

/* Any number. What a service is not given it does not look at. */
ALWAYS_INLINE int service(uint32_t number, uint32_t edx, uint32_t ecx, uint32_t ebx)
{
    int answer;

    /* "memory": the library reads and writes what the compiler does not see */
    __asm__ volatile("int %1"
                     : "=a"(answer)
                     : "i"(T_SERVICE), "a"(number), "d"(edx), "c"(ecx), "b"(ebx)
                     : "memory", "cc");
    return answer;
}

/* ---- service.c: the services by their names. An address is a number here, since most of what is asked for is about
   places where nothing is yet. */

void exit(void) __attribute__((noreturn));
int cputs(uint32_t va, uint32_t len);
uint32_t getid(void);
void yield(void);

int fork(void); /* the child's id; in the child, 0 */
int wait(uint32_t id);
int page_new(uint32_t va, uint32_t flags);
int page_drop(uint32_t va);
int send(uint32_t id, uint32_t value, uint32_t va);

/* what a receiver is told: who sent, the word, and of a page 0 (none came), 1 (it may be read) or 2 (written) */
struct message {
    uint32_t sender;
    uint32_t value;
    uint32_t page;
};

/* Waits for a message from an environment, or from any (0). A page comes to stand at va, where that is not 0. */
int receive(uint32_t va, uint32_t from, struct message *message);

/* ---- opening.c: files get descriptors. */

/* modes: for reading, for writing, for both; and what may stand beside that: a file that is missing is made, one that is
   there loses its bytes, and with O_CREAT one that is there is refused */
#define O_RDONLY 0
#define O_WRONLY 1
#define O_RDWR 2
#define O_CREAT 0x100
#define O_TRUNC 0x200
#define O_EXCL 0x400

int open(uint32_t path, uint32_t mode); /* the lowest descriptor that is free */

/* ---- descriptors.c. A program begins with 0 and 1, which name the console. */

/* the descriptors of an environment: 0 to 31 */
#define MAXFD 32

int close(uint32_t fd);
int dup(uint32_t old_fd, uint32_t new_fd); /* new_fd, which is closed first where it is open */

/* ---- pipes.c */

/* the bytes that a pipe holds */
#define PIPESIZE 32

/* A pipe gets the two lowest descriptors that are free: of what is written to the second the first one reads. */
struct pipe {
    uint32_t reading, writing;
};

int pipe(struct pipe *pipe); /* 0 */

/* ---- files.c: what a descriptor names, the console, a file or an end of a pipe. */

/* the most bytes of one read and of one write, and of one write to a file: of more, only so many are taken */
#define TRANSFER_MAX 4096
#define FILE_WRITE_MAX 4088

/* how many bytes were read: of a file those that are left, of the console one, and 0 at the end of either; of a pipe those that it has, one at
   least, and 0 when nobody has its writing end any more */
int read(uint32_t fd, uint32_t va, uint32_t len);
int write(uint32_t fd, uint32_t va, uint32_t len); /* how many bytes were written: to a pipe all, but where nobody has its reading end any more */

/* what stat tells: a name with zeros behind, a size in bytes, and 1 for a directory */
struct stat {
    char name[128];
    uint32_t size;
    uint32_t is_directory;
};

int stat(uint32_t fd, uint32_t va);

/* what is no file has neither a place of the next byte nor a size that could be set */
int seek(uint32_t fd, uint32_t offset);
int set_size(uint32_t fd, uint32_t size);

/* ---- requests.c: what the file server is asked for, beside what has a descriptor. */

/* the most bytes of a path, with its NUL */
#define MAXPATHLEN 1024

int remove(uint32_t path); /* the file goes from the disk */
int sync(void);            /* it writes what the disk lacks, and replies: 0 */

/* ---- spawning.c */

/* the most words that a program is given */
#define ARGS_MAX 16

/* A program of the disk is started in a child: the child's id. At argv stand the addresses of its words, with a 0 behind the last; the first is its
   name, whatever the path is. The child has the descriptors and the shared pages of the environment. */
int spawn(uint32_t path, uint32_t argv);

#endif
