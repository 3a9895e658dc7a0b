#define _GNU_SOURCE
#include "links.h"

#include "files.h"

#include <errno.h>
#include <limits.h>
#include <stdio.h>
#include <stdlib.h>
#include <string.h>
#include <unistd.h>

/* How many links lead from one to another at most, as Linux has it. */
#define MOST_LINKS 40

char *absolute(const char *name)
{
    char folder[PATH_MAX];
    if (name[0] == '/')
        return copy_of(name, strlen(name));
    if (!getcwd(folder, sizeof folder))
        return NULL;
    size_t room = strlen(folder) + strlen(name) + 2;
    char *path = malloc(room);
    if (path)
        snprintf(path, room, "%s/%s", folder, name);
    return path;
}

/* A name with what a link of this name has, which counts from the link's folder: in memory of its own, or null. */
static char *joined(const char *link, const char *to, size_t length)
{
    const char *slash = to[0] == '/' ? NULL : strrchr(link, '/');
    size_t folder = slash ? (size_t)(slash - link) + 1 : 0;
    char *path = malloc(folder + length + 1);
    if (path) {
        memcpy(path, link, folder);
        memcpy(path + folder, to, length);
        path[folder + length] = '\0';
    }
    return path;
}

/* Has a path lead on where a link stands there, or be null where there is no memory; answers whether it has changed. */
static bool follow_link(char **path)
{
    char to[PATH_MAX];
    ssize_t length = readlink(*path, to, sizeof to);
    if (length <= 0 || length == sizeof to)
        return false;
    char *next = joined(*path, to, (size_t)length);
    free(*path);
    *path = next;
    return true;
}

char *without_links(const char *name)
{
    char *path = absolute(name);
    for (int count = 0; path && count < MOST_LINKS; count++)
        if (!follow_link(&path))
            return path;
    errno = path ? ELOOP : errno;
    free(path);
    return NULL;
}
