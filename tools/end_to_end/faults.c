// Has one request for memory, or one call of the system, of the program fail that is started with this by LD_PRELOAD.
// tools/end_to_end/fault_rows.py says which by three variables of the environment. FAULT is memory, memory-from (that request and all after
// it), call, or interruption (a call that a signal interrupts); FAULT_AT is its number, from 1 on. FAULT_TOLD is a file, to which
// the name of what failed first is written, and `, accepting` where the program had begun to accept connections.
// The functions are those of the C library by their names, whatever they are called here.
#define _GNU_SOURCE
#include <dlfcn.h>
#include <errno.h>
#include <fcntl.h>
#include <netdb.h>
#include <stdlib.h>
#include <string.h>
#include <sys/syscall.h>
#include <unistd.h>

enum fault { NONE, MEMORY, MEMORY_FROM, CALL, INTERRUPTION };

static enum fault chosen;
static unsigned long at, seen;
static int is_accepting;

__attribute__((constructor)) static void choose(void) {
  const char *fault = getenv("FAULT"), *number = getenv("FAULT_AT");
  if (!fault || !number) return;
  at = strtoul(number, NULL, 10);
  static const char *const names[] = {"", "memory", "memory-from", "call", "interruption"};
  for (int it = MEMORY; it <= INTERRUPTION; it++)
    if (!strcmp(fault, names[it])) chosen = it;
}

// (by the kernel's own calls, which nothing here has fail)
static void tell(const char *name) {
  const char *told = getenv("FAULT_TOLD");
  long file = told ? syscall(SYS_openat, AT_FDCWD, told, O_WRONLY | O_CREAT | O_TRUNC, 0600) : -1;
  if (file < 0) return;
  syscall(SYS_write, file, name, strlen(name));
  if (is_accepting) syscall(SYS_write, file, ", accepting", 11);
  syscall(SYS_close, file);
}

static int fails(int is_memory, const char *name) {
  is_accepting = is_accepting || !strcmp(name, "accept4");
  if (chosen == NONE || is_memory != (chosen < CALL)) return 0;
  seen += 1;
  if (seen < at || (seen > at && chosen != MEMORY_FROM)) return 0;
  if (seen == at) tell(name);
  return 1;
}

extern void *__libc_malloc(size_t), *__libc_calloc(size_t, size_t), *__libc_realloc(void *, size_t);

static void *refuse(void) {
  errno = ENOMEM;
  return NULL;
}

void *malloc(size_t size) { return fails(1, "malloc") ? refuse() : __libc_malloc(size); }
void *calloc(size_t count, size_t size) { return fails(1, "calloc") ? refuse() : __libc_calloc(count, size); }
void *realloc(void *old, size_t size) { return fails(1, "realloc") ? refuse() : __libc_realloc(old, size); }

// A call of the system has six words at most, and hands on what it is given. It fails with this error, and answers `failed`.
typedef long call_of_words(long, long, long, long, long, long);
#define FAILS(name, error, failed)                                                      \
  long may_fail_##name(long, long, long, long, long, long) __asm__(#name);              \
  long may_fail_##name(long a, long b, long c, long d, long e, long f) {                \
    static call_of_words *next;                                                         \
    if (fails(0, #name)) return errno = chosen == CALL ? (error) : EINTR, failed;       \
    if (!next) next = (call_of_words *)dlsym(RTLD_NEXT, #name);                         \
    return next(a, b, c, d, e, f);                                                      \
  }

// Files and folders.
FAILS(open, EMFILE, -1)
FAILS(openat, EMFILE, -1)
FAILS(access, EIO, -1)
FAILS(read, EIO, -1)
FAILS(pread, EIO, -1)
FAILS(pread64, EIO, -1)
FAILS(write, ENOSPC, -1)
FAILS(__write, ENOSPC, -1)
FAILS(writev, ENOSPC, -1)
FAILS(lseek, EIO, -1)
FAILS(statx, EIO, -1)
FAILS(getdents64, EIO, -1)
FAILS(readlink, EIO, -1)
FAILS(realpath, EIO, 0)
FAILS(mkdir, ENOSPC, -1)
FAILS(rmdir, EIO, -1)
FAILS(unlink, EIO, -1)
FAILS(unlinkat, EIO, -1)
FAILS(rename, EIO, -1)
FAILS(link, EIO, -1)
FAILS(symlink, ENOSPC, -1)
FAILS(chmod, EIO, -1)
FAILS(fchmod, EIO, -1)
FAILS(ftruncate, EIO, -1)
FAILS(fsync, EIO, -1)
FAILS(fdatasync, EIO, -1)
FAILS(getentropy, EIO, -1)

// Sockets.
FAILS(socket, EMFILE, -1)
FAILS(bind, EADDRINUSE, -1)
FAILS(listen, EADDRINUSE, -1)
FAILS(connect, ECONNREFUSED, -1)
FAILS(accept4, ECONNABORTED, -1)
FAILS(getsockname, ENOBUFS, -1)
FAILS(getpeername, ENOBUFS, -1)
FAILS(setsockopt, ENOMEM, -1)
FAILS(getsockopt, ENOBUFS, -1)
FAILS(send, ECONNRESET, -1)
FAILS(sendto, ECONNRESET, -1)
FAILS(sendmsg, ECONNRESET, -1)
FAILS(recv, ECONNRESET, -1)
FAILS(recvfrom, ECONNRESET, -1)
FAILS(shutdown, ENOTCONN, -1)
FAILS(fcntl, EMFILE, -1)
FAILS(ioctl, EIO, -1)
FAILS(dup, EMFILE, -1)
FAILS(poll, ENOMEM, -1)
FAILS(epoll_create1, EMFILE, -1)
FAILS(epoll_ctl, ENOMEM, -1)
FAILS(epoll_wait, EIO, -1)
FAILS(getaddrinfo, ENOMEM, EAI_SYSTEM)

// Processes.
FAILS(posix_spawn, EAGAIN, EAGAIN)
FAILS(pipe2, EMFILE, -1)
FAILS(waitid, ECHILD, -1)
FAILS(waitpid, ECHILD, -1)
