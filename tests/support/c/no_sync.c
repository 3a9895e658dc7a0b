/* Loaded before the C library, has no sync do anything. */
int fdatasync(int file)
{
    return file < 0;
}

int fsync(int file)
{
    return file < 0;
}
