/* System calls that write into the heap while a cycle marks: into pointer-free objects, and, under libmpgc.so, into ordinary ones, whose
 * pages are closed. -DWITHOUT_SYSCALLS where the library is the archive, which has none of these functions of the C library. */
#define _GNU_SOURCE
#include <errno.h>
#include <arpa/inet.h>
#include <fcntl.h>
#include <netinet/in.h>
#include <dirent.h>
#include <poll.h>
#include <pthread.h>
#include <sched.h>
#include <signal.h>
#include <sys/epoll.h>
#include <sys/eventfd.h>
#include <sys/ioctl.h>
#include <sys/msg.h>
#include <sys/random.h>
#include <sys/resource.h>
#include <sys/select.h>
#include <sys/sendfile.h>
#include <sys/socket.h>
#include <sys/stat.h>
#include <sys/sysinfo.h>
#include <sys/time.h>
#include <sys/timerfd.h>
#include <sys/times.h>
#include <sys/uio.h>
#include <sys/utsname.h>
#include <sys/vfs.h>
#include <time.h>
#include "check.h"
#include "cycle.h"

static int file_of(const char *text)
{
    int ends[2];
    if (pipe(ends) != 0) return -1;
    if (write(ends[1], text, strlen(text)) < 0) return -1;
    close(ends[1]);
    return ends[0];
}

/* Whether the way of reading puts the text there. */
static int reads(ssize_t (*way)(int, char *), char *into)
{
    int file = file_of("from the kernel");
    ssize_t n = way(file, into);
    close(file);
    return n == 15 && memcmp(into, "from the kernel", 15) == 0;
}

static ssize_t by_read(int file, char *into) { return read(file, into, 2000); }
static ssize_t by_readv(int file, char *into)
{
    struct iovec parts[2] = { { into, 4 }, { into + 4, 500 } };
    return readv(file, parts, 2);
}
static ssize_t by_fread(int file, char *into)
{
    FILE *stream = fdopen(dup(file), "r");
    setvbuf(stream, NULL, _IONBF, 0);
    size_t n = fread(into, 1, 15, stream);
    fclose(stream);
    return (ssize_t)n;
}
static ssize_t by_fread_unlocked(int file, char *into)
{
    FILE *stream = fdopen(dup(file), "r");
    size_t n = fread_unlocked(into, 1, 1999, stream);
    fclose(stream);
    return (ssize_t)n;
}

#ifndef WITHOUT_SYSCALLS
/* Each into an object of its own, from k on: its pages are closed when the kernel writes there. */
static char *closed(int k) { return ordinary[k]; }
static void *place(int k) { return ordinary[k]; }

static void of_files(void)
{
    struct stat *s = place(150), *l = place(160), *f = place(170), *at = place(180);
    CHECK(stat("/", s) == 0 && S_ISDIR(s->st_mode));
    CHECK(lstat("/", l) == 0 && l->st_ino == s->st_ino);
    CHECK(fstatat(AT_FDCWD, "/", at, 0) == 0 && at->st_ino == s->st_ino);
    int file = open("/", O_RDONLY);
    CHECK(fstat(file, f) == 0 && f->st_ino == s->st_ino);
    close(file);
    CHECK(getcwd(closed(190), 2000) == closed(190) && ordinary[190][0] == '/');
    CHECK(readlink("/proc/self/exe", closed(200), 2000) > 0 && ordinary[200][0] == '/');
    CHECK(readlinkat(AT_FDCWD, "/proc/self/exe", closed(205), 2000) > 0 && ordinary[205][0] == '/');
    struct statfs *system = place(207);
    CHECK(statfs("/", system) == 0 && system->f_bsize > 0);
    int *ends = place(210), *more = place(215);
    CHECK(pipe(ends) == 0 && write(ends[1], "x", 1) == 1 && pipe2(more, O_CLOEXEC) == 0 && more[1] > more[0]);
    close(ends[0]);
    close(ends[1]);
    close(more[0]);
    close(more[1]);
}

/* The names by which a program calls that was built with checks of its buffers. */
extern ssize_t __read_chk(int, void *, size_t, size_t), __pread_chk(int, void *, size_t, off_t, size_t),
    __pread64_chk(int, void *, size_t, off64_t, size_t), __recv_chk(int, void *, size_t, size_t, int),
    __recvfrom_chk(int, void *, size_t, size_t, int, struct sockaddr *, socklen_t *), __readlink_chk(const char *, char *, size_t, size_t),
    __readlinkat_chk(int, const char *, char *, size_t, size_t);
extern size_t __fread_chk(void *, size_t, size_t, size_t, FILE *), __fread_unlocked_chk(void *, size_t, size_t, size_t, FILE *);
extern char *__getcwd_chk(char *, size_t, size_t);
extern int __poll_chk(struct pollfd *, nfds_t, int, size_t),
    __ppoll_chk(struct pollfd *, nfds_t, const struct timespec *, const sigset_t *, size_t);

static void checked(int from, int to)
{
    int file = open("/proc/self/exe", O_RDONLY);
    CHECK(__read_chk(file, closed(64), 100, 2000) == 100 && memcmp(closed(64) + 1, "ELF", 3) == 0);
    CHECK(__pread_chk(file, closed(67), 100, 1, 2000) == 100 && memcmp(closed(67), "ELF", 3) == 0);
    CHECK(__pread64_chk(file, closed(70), 100, 1, 2000) == 100 && memcmp(closed(70), "ELF", 3) == 0);
    FILE *stream = fdopen(file, "r");
    rewind(stream);
    CHECK(__fread_chk(closed(73), 2000, 1, 2000, stream) == 2000 && memcmp(closed(73) + 1, "ELF", 3) == 0);
    CHECK(__fread_unlocked_chk(closed(76), 2000, 1, 2000, stream) == 2000);
    fclose(stream);
    CHECK(__readlink_chk("/proc/self/exe", closed(79), 2000, 2000) > 0 && *closed(79) == '/');
    CHECK(__readlinkat_chk(AT_FDCWD, "/proc/self/exe", closed(82), 2000, 2000) > 0 && *closed(82) == '/');
    CHECK(__getcwd_chk(closed(85), 2000, 2000) == closed(85) && *closed(85) == '/');
    CHECK(send(from, "checked", 8, 0) == 8 && __recv_chk(to, closed(88), 2000, 2000, 0) == 8 && strcmp(closed(88), "checked") == 0);
    CHECK(send(from, "checked", 8, 0) == 8 && __recvfrom_chk(to, closed(91), 2000, 2000, 0, NULL, NULL) == 8);
    struct pollfd *wait = place(94);
    wait->fd = from;
    wait->events = POLLOUT;
    CHECK(__poll_chk(wait, 1, 1000, sizeof *wait) == 1 && (wait->revents & POLLOUT));
    struct pollfd *other = place(97);
    *other = (struct pollfd){ .fd = from, .events = POLLOUT };
    CHECK(__ppoll_chk(other, 1, NULL, NULL, sizeof *other) == 1 && (other->revents & POLLOUT));
}

static void of_sockets(int from, int to)
{
    struct iovec *part = place(220);
    struct msghdr *message = place(230);
    part->iov_base = closed(240);
    part->iov_len = 2000;
    message->msg_iov = part;
    message->msg_iovlen = 1;
    CHECK(send(from, "message", 8, 0) == 8 && recvmsg(to, message, 0) == 8 && strcmp(ordinary[240], "message") == 0);
    CHECK(send(from, "more", 5, 0) == 5);
    struct pollfd *wait = place(250);
    wait->fd = to;
    wait->events = POLLIN;
    CHECK(poll(wait, 1, 1000) == 1 && (wait->revents & POLLIN));
    fd_set *set = place(260);
    FD_SET(to, set);
    CHECK(select(to + 1, set, NULL, NULL, place(270)) == 1 && FD_ISSET(to, set));
    struct epoll_event wanted = { .events = EPOLLIN, .data.fd = to }, *seen = place(280);
    int queue = epoll_create1(0);
    CHECK(epoll_ctl(queue, EPOLL_CTL_ADD, to, &wanted) == 0 && epoll_wait(queue, seen, 4, 1000) == 1 && seen->data.fd == to);
    CHECK(epoll_pwait(queue, place(285), 4, 1000, NULL) == 1);
    CHECK(epoll_pwait2(queue, place(288), 4, NULL, NULL) == 1);
    int *ends = place(345), *option = place(350);
    socklen_t *length = place(355);
    *length = sizeof *option;
    CHECK(socketpair(AF_UNIX, SOCK_STREAM, 0, ends) == 0 && getsockopt(ends[0], SOL_SOCKET, SO_TYPE, option, length) == 0);
    CHECK(*option == SOCK_STREAM && *length == sizeof *option);
    close(ends[0]);
    close(ends[1]);
    close(queue);
    CHECK(ioctl(to, FIONREAD, closed(290)) == 0 && *(int *)place(290) == 5);
}

/* A connection, whose ends tell their addresses. */
static void of_addresses(void)
{
    int listening = socket(AF_INET, SOCK_STREAM | SOCK_NONBLOCK, 0), calling = socket(AF_INET, SOCK_STREAM, 0);
    struct sockaddr_in *own = place(360), *peer = place(365), *caller = place(370);
    socklen_t *lengths[3] = { place(375), place(380), place(385) };
    for (int k = 0; k < 3; k++) *lengths[k] = sizeof *own;
    struct sockaddr_in any = { .sin_family = AF_INET, .sin_addr.s_addr = htonl(INADDR_LOOPBACK) };
    CHECK(bind(listening, (struct sockaddr *)&any, sizeof any) == 0 && listen(listening, 2) == 0);
    CHECK(getsockname(listening, (struct sockaddr *)own, lengths[0]) == 0 && own->sin_port != 0);
    CHECK(connect(calling, (struct sockaddr *)own, sizeof *own) == 0);
    int accepted = accept(listening, (struct sockaddr *)caller, lengths[1]);
    CHECK(accepted >= 0 && caller->sin_family == AF_INET);
    CHECK(getpeername(calling, (struct sockaddr *)peer, lengths[2]) == 0 && peer->sin_port == own->sin_port);
    close(accepted);
    close(calling);
    close(listening);
}

static void of_times_and_limits(void)
{
    CHECK(times(place(388)) > 0);
    struct rlimit *limit = place(390);
    CHECK(getrlimit(RLIMIT_STACK, limit) == 0 && limit->rlim_cur > 0);
    struct itimerval late = { { 0, 0 }, { 1000, 0 } }, never = { { 0, 0 }, { 0, 0 } }, *left = place(392), *was = place(394);
    CHECK(setitimer(ITIMER_VIRTUAL, &late, NULL) == 0 && getitimer(ITIMER_VIRTUAL, left) == 0 && left->it_value.tv_sec > 0);
    CHECK(setitimer(ITIMER_VIRTUAL, &never, was) == 0 && was->it_value.tv_sec > 0);
}

static void of_the_rest(void)
{
    struct timespec *time = place(310);
    CHECK(clock_gettime(CLOCK_PROCESS_CPUTIME_ID, time) == 0 && time->tv_sec + time->tv_nsec > 0);
    CHECK(getrandom(closed(320), 100, 0) == 100);
    struct timespec *left = place(323), moment = { 0, 1000 };
    int slept = nanosleep(&moment, left);
    CHECK(slept == 0 || errno == EINTR);  // a stop of the world interrupts it
    struct rusage *used = place(325);
    CHECK(getrusage(RUSAGE_SELF, used) == 0 && used->ru_maxrss > 0);
    struct utsname *names = place(327);
    CHECK(uname(names) == 0 && strcmp(names->sysname, "Linux") == 0);
    CHECK(sigprocmask(SIG_BLOCK, NULL, place(340)) == 0);
    of_times_and_limits();
    fflush(stdout);
    pid_t child = fork();
    if (child == 0) _exit(7);
    int *status = place(330);
    CHECK(waitpid(child, status, 0) == child && WEXITSTATUS(*status) == 7);
    int *next_status = place(335);
    child = fork();
    if (child == 0) _exit(9);
    CHECK(wait(next_status) == child && WEXITSTATUS(*next_status) == 9);
    siginfo_t *ended = place(396);
    child = fork();
    if (child == 0) _exit(5);
    CHECK(waitid(P_PID, (id_t)child, ended, WEXITED) == 0 && ended->si_status == 5);
    int *last_status = place(398);
    child = fork();
    if (child == 0) _exit(6);
    CHECK(wait3(last_status, 0, place(342)) == child && WEXITSTATUS(*last_status) == 6);
}

static void of_files_again(void)
{
    struct statx *about = place(0);
    CHECK(statx(AT_FDCWD, "/", 0, STATX_ALL, about) == 0 && S_ISDIR(about->stx_mode));
    int file = open("/proc/self/exe", O_RDONLY), ends[2];
    off_t *at = place(4);
    off64_t *at64 = place(8);
    CHECK(pipe(ends) == 0 && sendfile(ends[1], file, at, 10) == 10 && *at == 10);
    CHECK(sendfile64(ends[1], file, at64, 10) == 10 && *at64 == 10);
    close(ends[0]);
    close(ends[1]);
    close(file);
    CHECK(socketpair(AF_UNIX, SOCK_DGRAM, 0, ends) == 0 && send(ends[0], "one of them", 12, 0) == 12);
    struct mmsghdr *messages = place(12);
    struct iovec *part = place(16);
    *part = (struct iovec){ closed(20), 2000 };
    messages->msg_hdr.msg_iov = part;
    messages->msg_hdr.msg_iovlen = 1;
    CHECK(recvmmsg(ends[1], messages, 1, 0, NULL) == 1 && messages->msg_len == 12 && strcmp(closed(20), "one of them") == 0);
    close(ends[0]);
    close(ends[1]);
}

static void of_clocks(void)
{
    struct timespec *grain = place(24);
    struct timeval *now = place(28);
    time_t *seconds = place(32);
    CHECK(clock_getres(CLOCK_PROCESS_CPUTIME_ID, grain) == 0 && grain->tv_nsec > 0);
    /* time() reads a coarser clock, which is behind at the turn of a second */
    CHECK(gettimeofday(now, NULL) == 0 && now->tv_sec > 0 && time(seconds) == *seconds && *seconds + 1 >= now->tv_sec);
    struct itimerspec late = { { 0, 0 }, { 1000, 0 } }, *left = place(36), *was = place(40), *more = place(44), *once = place(48);
    timer_t timer;
    CHECK(timer_create(CLOCK_MONOTONIC, &(struct sigevent){ .sigev_notify = SIGEV_NONE }, &timer) == 0);
    CHECK(timer_settime(timer, 0, &late, NULL) == 0 && timer_gettime(timer, left) == 0 && left->it_value.tv_sec > 0);
    CHECK(timer_settime(timer, 0, &late, was) == 0 && was->it_value.tv_sec > 0);
    timer_delete(timer);
    int file = timerfd_create(CLOCK_MONOTONIC, 0);
    CHECK(timerfd_settime(file, 0, &late, NULL) == 0 && timerfd_gettime(file, more) == 0 && more->it_value.tv_sec > 0);
    CHECK(timerfd_settime(file, 0, &late, once) == 0 && once->it_value.tv_sec > 0);
    close(file);
    struct timespec moment = { 0, 1000 };
    int slept = clock_nanosleep(CLOCK_MONOTONIC, 0, &moment, place(52));
    CHECK(slept == 0 || slept == EINTR);  // a stop of the world interrupts it
}

static void of_the_system(void)
{
    static const char zeros[100];
    struct sysinfo *system = place(56);
    cpu_set_t *processors = place(60);
    CHECK(sysinfo(system) == 0 && system->totalram > 0);
    CHECK(sched_getaffinity(0, sizeof *processors, processors) == 0 && CPU_COUNT(processors) > 0);
    CHECK(getgroups(400, place(64)) >= 0);
    CHECK(getentropy(closed(68), 100) == 0 && memcmp(closed(68), zeros, 100) != 0);
#if __GLIBC_PREREQ(2, 36)
    arc4random_buf(closed(72), 100);
    CHECK(memcmp(closed(72), zeros, 100) != 0);
#endif
    sigset_t one, old;
    sigemptyset(&one);
    sigaddset(&one, SIGUSR1);
    sigprocmask(SIG_BLOCK, &one, &old);
    raise(SIGUSR1);
    CHECK(sigpending(place(76)) == 0 && sigismember(place(76), SIGUSR1));
    siginfo_t *came = place(80), *next = place(84);
    CHECK(sigwaitinfo(&one, came) == SIGUSR1 && came->si_signo == SIGUSR1);
    raise(SIGUSR1);
    CHECK(sigtimedwait(&one, next, &(struct timespec){ 1, 0 }) == SIGUSR1 && next->si_signo == SIGUSR1);
    sigprocmask(SIG_SETMASK, &old, NULL);
}

static void of_threads_and_queues(void)
{
    int events = eventfd(5, 0), queue = msgget(IPC_PRIVATE, 0600 | IPC_CREAT), root = open("/", O_RDONLY | O_DIRECTORY);
    eventfd_t *count = place(88);
    CHECK(eventfd_read(events, count) == 0 && *count == 5);
    struct { long kind; char text[8]; } message = { 1, "a text" }, *came = place(92);
    CHECK(queue < 0 || (msgsnd(queue, &message, 8, 0) == 0 && msgrcv(queue, came, 8, 0, 0) == 8 && strcmp(came->text, "a text") == 0));
    msgctl(queue, IPC_RMID, NULL);
    struct dirent64 *entry = place(96);
    CHECK(getdents64(root, entry, 1000) > 0 && entry->d_reclen > 0);
    cpu_set_t *processors = place(104);
    struct sched_param *parameters = place(108);
    CHECK(pthread_getname_np(pthread_self(), closed(100), 16) == 0 && closed(100)[0] != 0);
    CHECK(pthread_getaffinity_np(pthread_self(), sizeof *processors, processors) == 0 && CPU_COUNT(processors) > 0);
    CHECK(sched_getparam(0, parameters) == 0);
    struct rlimit *limit = place(112);
    CHECK(prlimit(0, RLIMIT_NOFILE, NULL, limit) == 0 && limit->rlim_cur > 0);
    uid_t *real = place(116), *effective = place(120);
    gid_t *of_group = place(128);
    *real = 77;
    CHECK(getresuid(real, effective, place(124)) == 0 && *real == getuid() && *effective == geteuid());
    CHECK(getresgid(of_group, place(132), place(136)) == 0 && *of_group == getgid());
    struct f_owner_ex *owner = place(140);
    CHECK(fcntl(events, F_GETOWN_EX, owner) == 0 && owner->pid == 0);
    CHECK(fcntl(root, F_GETFD) == 0 && fcntl(root, F_SETFD, FD_CLOEXEC) == 0 && fcntl(root, F_GETFD) == FD_CLOEXEC);
    close(events);
    close(root);
}

static void more_system_calls(void)
{
    begin();
    of_threads_and_queues();
    of_files_again();
    of_clocks();
    of_the_system();
    end();
}
#endif

static void system_calls(void)
{
    static ssize_t (*const ways[])(int, char *) = { by_read, by_readv, by_fread, by_fread_unlocked };
    begin();
    for (int k = 0; k < 4; k++) {
#ifndef WITHOUT_SYSCALLS
        CHECK(reads(ways[k], ordinary[10 * k]));
        CHECK(reads(ways[k], ordinary[10 * k] + 1000));
#endif
        CHECK(reads(ways[k], atomic[10 * k]));
    }
#ifndef WITHOUT_SYSCALLS
    int ends[2];
    CHECK(socketpair(AF_UNIX, SOCK_DGRAM, 0, ends) == 0 && send(ends[0], "by socket", 10, 0) == 10);
    CHECK(recv(ends[1], ordinary[100], 2000, 0) == 10 && strcmp(ordinary[100], "by socket") == 0);
    CHECK(send(ends[0], "by socket", 10, 0) == 10);
    CHECK(recvfrom(ends[1], ordinary[120], 2000, 0, NULL, NULL) == 10 && strcmp(ordinary[120], "by socket") == 0);
    int file = open("/proc/self/exe", O_RDONLY);
    CHECK(pread(file, ordinary[130], 100, 1) == 100 && memcmp(ordinary[130], "ELF", 3) == 0);
    CHECK(pread64(file, ordinary[140], 100, 1) == 100 && memcmp(ordinary[140], "ELF", 3) == 0);
    struct iovec parts[2] = { { ordinary[143], 50 }, { ordinary[146], 50 } };
    CHECK(preadv(file, parts, 2, 1) == 100 && memcmp(ordinary[143], "ELF", 3) == 0);
    parts[0].iov_base = ordinary[148];
    CHECK(preadv64(file, parts, 1, 1) == 50 && memcmp(ordinary[148], "ELF", 3) == 0);
    parts[0].iov_base = ordinary[152];
    CHECK(preadv2(file, parts, 1, 1, 0) == 50 && memcmp(ordinary[152], "ELF", 3) == 0);
    parts[0].iov_base = ordinary[156];
    CHECK(preadv64v2(file, parts, 1, 1, 0) == 50 && memcmp(ordinary[156], "ELF", 3) == 0);
    close(file);
    checked(ends[0], ends[1]);
    of_files();
    of_sockets(ends[0], ends[1]);
    of_addresses();
    of_the_rest();
#endif
    end();
    /* What the kernel wrote over is still written to and collected as ever. */
    *(void **)(void *)ordinary[10] = GC_malloc(50);
    GC_gcollect();
    CHECK(GC_base(*(void **)(void *)ordinary[10]) != NULL);
}

/* Without small steps no page is closed while the program runs, also where a collection could be broken off. */
static int never(void) { return 0; }
static void of_full_collections(void)
{
    for (int k = 0; k < COUNT; k++) ordinary[k] = GC_malloc(2000);
    CHECK(GC_try_to_collect(never) == 1 && reads(by_read, ordinary[5]) && reads(by_read, ordinary[395]));
}

int main(void)
{
    GC_INIT();
    of_full_collections();
    GC_enable_incremental();
    system_calls();
#ifndef WITHOUT_SYSCALLS
    more_system_calls();
#endif
    return check_ends();
}
