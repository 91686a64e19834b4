/* A file is opened, told of, read, closed, made, written and read back; and one is written that has an indirect block. What is read is
   compared byte by byte. fffffff5 is 11 (E_NOT_FOUND) and fffffffd is 3 (E_INVAL), negated. (MIT 6.828, lab 5: user/testfile.c) */
#include "print.h"
#include "service.h"
#include "string.h"

#define MOTD_SIZE 27 /* of /newmotd: "This is the NEW message.\n" and more, as the disk has it */
#define BUFFER 0x00900000
#define BIG 46000
#define PIECE 500

static const char text[] = "This is the NEW message.\r\n!";

static int is_text(uint32_t size)
{
    return memcmp((char *)BUFFER, text, size) == 0;
}

static void tell_stat(uint32_t fd)
{
    static struct stat told;

    print_line("stat", stat(fd, (uint32_t)&told));
    print(told.name);
    print_line(" has", told.size);
    print_line("is a directory", told.is_directory);
}

/* The one that is there. */
static void of_old(void)
{
    int fd = open((uint32_t) "/newmotd", O_RDONLY);

    print_line("open of /newmotd", fd);
    tell_stat(fd);
    print_line("read", read(fd, BUFFER, 512));
    print_line("it is the text", is_text(MOTD_SIZE));
    print_line("read at its end", read(fd, BUFFER, 512));
    print_line("write, open for reading", write(fd, BUFFER, 1));
    print_line("close", close(fd));
    print_line("read of a closed one", read(fd, BUFFER, 512));
}

static void of_new(void)
{
    int fd = open((uint32_t) "/new-file", O_RDWR | O_CREAT);

    print_line("open of /new-file", fd);
    print_line("write", write(fd, (uint32_t)text, MOTD_SIZE));
    print_line("seek", seek(fd, 0));
    memset((char *)BUFFER, 0, 512);
    print_line("read", read(fd, BUFFER, 512));
    print_line("it is the text", is_text(MOTD_SIZE));
    tell_stat(fd);
    print_line("close", close(fd));
}

/* Piece by piece, with each piece's number all over it. */
static void of_big(void)
{
    uint32_t at, count;
    int fd = open((uint32_t) "/big", O_WRONLY | O_CREAT);

    print_line("open of /big", fd);
    for (at = 0; at < BIG; at += PIECE) {
        memset((char *)BUFFER, at / PIECE, PIECE);
        if (write(fd, BUFFER, PIECE) != PIECE)
            print_line("not all is written at", at);
    }
    print_line("close", close(fd));

    fd = open((uint32_t) "/big", O_RDONLY);
    print_line("open of /big", fd);
    tell_stat(fd);
    for (at = 0; at < BIG; at += PIECE) {
        count = read(fd, BUFFER, PIECE);
        if (count != PIECE)
            print_line("not all is read at", at);
        for (uint32_t k = 0; k < PIECE; k++)
            if (((unsigned char *)BUFFER)[k] != at / PIECE) {
                print_line("another byte at", at + k);
                break;
            }
    }
    print_line("read at its end", read(fd, BUFFER, PIECE));
    print_line("close", close(fd));
}

void umain(int argc, char **argv)
{
    page_new(BUFFER, PAGE_WRITE);
    print_line("open of /not-found", open((uint32_t) "/not-found", O_RDONLY));
    of_old();
    of_new();
    of_big();
    print_line("sync", sync());
}
