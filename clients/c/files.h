/* What the files of a session ask of the system. Each call is begun again where a signal's handler breaks it off. */
#ifndef REGISTRYD_FILES_H
#define REGISTRYD_FILES_H

#include <stdbool.h>
#include <stddef.h>
#include <stdint.h>
#include <sys/stat.h>

/* Bytes in memory of their own; zero at first. */
struct bytes {
    char *at;
    size_t length, room;
};

/* Makes room for so many bytes in all; false where there is no memory, and then nothing has changed. */
bool make_room(struct bytes *bytes, size_t room);
/* Room for so many bytes more, at least twice as much as before. */
bool make_more(struct bytes *bytes, size_t more);
/* Appends what there is room for. */
void append(struct bytes *bytes, const void *more, size_t length);
void drop_first(struct bytes *bytes, size_t length);
/* Copies what is not taken, as far as there is room: tells how much, and how much is left. */
void copy_out(const struct bytes *bytes, size_t *taken, char *to, size_t room, size_t *length, size_t *left);
void free_bytes(struct bytes *bytes);

/* Bytes as the archive takes them: never null, also where there are none. */
uint8_t *bytes_at(const void *bytes);

/* A copy of a text, or of so many bytes of it, or null. */
char *copy_of(const char *text, size_t length);

/* The same open file beside the standard streams, or -1: where one of these is closed, the system gives its number to a file, and what
 * is meant for the stream would go there. */
int beside_streams(int file);

/* Opens a file under a number that is none of the three of the standard streams, and that no other program inherits; -1 where that
 * can't be done. What is made gets the mode that the system gives to a new file. */
int open_file(const char *name, int how);

/* Takes an open file, where no other session has it: 1. Otherwise 0, or -1 where the system refuses. The lock is the program's. */
int lock_file(int file);

/* Closes an open file that was locked. A process that another thread has just forked shares the open file, and with it the lock, until it
 * runs a program of its own: so the lock is given back first. */
void close_locked(int file);

/* Whether what was found twice is one file, whatever it was found by. */
bool is_same_file(const struct stat *one, const struct stat *other);

/* Whether a name stands for this open file: 1, 0, or -1 where the system can't tell. */
int is_named(const char *name, int file);

/* Reads what is left of a file to the end of `bytes`: 1, or 0 where there is no memory, or -1. */
int read_whole(int file, struct bytes *bytes);

/* Each of these answers whether it was done. */
bool write_all(int file, const char *bytes, size_t length);
bool cut_file(int file, off_t length);
bool sync_file(int file);
bool sync_data(int file);

/* Has the name of a file outlast a crash, on a system that can do that for a folder. */
bool sync_folder(const char *name);

#endif
