/* A `read` that is put before the C library's: every other call is interrupted before it reads anything, and the others read at most a few
 * thousand bytes. It makes the system call itself, for x86-64, since the C library's `read` is what it stands before. */

int *__errno_location(void);

enum { EINTR = 4, READ = 0 };

static unsigned long calls;

long read(int fd, void *buffer, unsigned long size)
{
    unsigned long call = calls++;
    unsigned long most = 1 + call * 7919 % 5000;
    long answer = READ;
    if (call % 2 == 0) {
        *__errno_location() = EINTR;
        return -1;
    }
    __asm__ volatile("syscall"
                     : "+a"(answer)
                     : "D"((long)fd), "S"(buffer), "d"(size < most ? size : most)
                     : "rcx", "r11", "memory");
    if (answer < 0) {
        *__errno_location() = (int)-answer;
        return -1;
    }
    return answer;
}
