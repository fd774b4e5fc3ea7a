/* System calls as in kernel.c that write into closed pages: what the kernel copies between files, pipes, messages and processes, attributes of
 * files, queues, semaphores, limits, and the old names of those that tell of files. And calls that have many places to write to, and wait, while
 * cycles close pages beside them. */
#define _GNU_SOURCE
#define GC_THREADS
#include <dirent.h>
#include <dlfcn.h>
#include <elf.h>
#include <errno.h>
#include <fcntl.h>
#include <linux/fiemap.h>
#include <linux/filter.h>
#include <linux/fs.h>
#include <mqueue.h>
#include <pthread.h>
#include <sched.h>
#include <setjmp.h>
#include <stdint.h>
#include <sys/ioctl.h>
#include <sys/msg.h>
#include <sys/mman.h>
#include <sys/prctl.h>
#include <sys/ptrace.h>
#include <sys/resource.h>
#include <sys/select.h>
#include <sys/sem.h>
#include <sys/shm.h>
#include <sys/socket.h>
#include <sys/stat.h>
#include <sys/timex.h>
#include <sys/uio.h>
#include <sys/user.h>
#include <sys/xattr.h>
#include "check.h"
#include "cycle.h"
#include "watch.h"

/* Each into an object of its own, whose page is closed when the kernel writes there. */
static void *place(void)
{
    static int at;
    at += 2;
    return ordinary[at];
}

/* What is longer than one would think from the call: it begins so many bytes before the first of four pages, which are opened together. */
enum { LONG = 60000, LONGS = 12 };
static char *longs[LONGS];
static char *before_pages(size_t bytes)
{
    enum { TOGETHER = 4 * 4096 };
    static int at;
    uintptr_t from = (uintptr_t)longs[at++] + bytes + TOGETHER - 1;
    return (char *)(from - from % TOGETHER - bytes);
}

static int file_with(const char *text)
{
    char path[] = "/tmp/mpgc.XXXXXX";
    int file = mkstemp(path);
    if (file < 0 || unlink(path) != 0 || write(file, text, strlen(text)) != (ssize_t)strlen(text)) exit(1);
    return file;
}

static void of_copies(void)
{
    int file = file_with("0123456789"), other = file_with(""), ends[2];
    off64_t *from = place(), *at = place(), *into = place();
    if (pipe(ends) != 0) return;
    CHECK(splice(file, from, ends[1], NULL, 4, 0) == 4 && *from == 4);
    CHECK(copy_file_range(file, at, other, into, 6, 0) == 6 && *at == 6 && *into == 6);
    char *text = place(), *read = place(), *written = before_pages(0);
    CHECK(vmsplice(ends[0], &(struct iovec){ text, 4 }, 1, 0) == 4 && memcmp(text, "0123", 4) == 0);
    struct iovec part = { read, 3 }, source = { "abc", 3 };
    CHECK(process_vm_readv(getpid(), &part, 1, &source, 1, 0) == 3 && memcmp(read, "abc", 3) == 0);
    const struct iovec *volatile none = NULL;
    CHECK(readv(file, none, 1) == -1 && errno == EFAULT && readv(file, none, 100) == -1 && errno == EFAULT);
    part.iov_base = written;
    CHECK(process_vm_writev(getpid(), &source, 1, &part, 1, 0) == 3 && memcmp(written, "abc", 3) == 0);
    CHECK(fsetxattr(file, "user.mpgc", "x", 1, 0) != 0 || (fgetxattr(file, "user.mpgc", read = place(), 9) == 1 && *read == 'x'));
    CHECK(flistxattr(file, place(), 1000) >= 0 || errno == ENOTSUP);
    CHECK(getxattr("/", "user.mpgc", place(), 9) >= 0 || errno != EFAULT);
    CHECK(listxattr("/", place(), 1000) >= 0 || errno == ENOTSUP);
    close(file);
    close(other);
}

/* How many bytes each message had stands in it: so it was filled before its page was closed. */
static struct mmsghdr *to_send;
static void of_messages(void)
{
    int ends[2];
    char came[9];
    CHECK(socketpair(AF_UNIX, SOCK_DGRAM, 0, ends) == 0 && sendmmsg(ends[0], to_send, 1, 0) == 1 && to_send->msg_len == 5);
    CHECK(recv(ends[1], came, sizeof came, 0) == 5);
}

static void of_queues(void)
{
    mqd_t queue = mq_open("/mpgc_copies", O_RDWR | O_CREAT | O_NONBLOCK, 0600, &(struct mq_attr){ .mq_maxmsg = 4, .mq_msgsize = 64 });
    struct mq_attr *attributes = place();
    if (queue == (mqd_t)-1) return;
    mq_unlink("/mpgc_copies");
    char *text = place(), *other = place();
    unsigned *priority = place();
    CHECK(mq_send(queue, "one", 3, 7) == 0 && mq_receive(queue, text, 64, priority) == 3 && *priority == 7 && memcmp(text, "one", 3) == 0);
    CHECK(mq_send(queue, "two", 3, 1) == 0 && mq_timedreceive(queue, other, 64, NULL, &(struct timespec){ 0 }) == 3 && *other == 't');
    CHECK(mq_getattr(queue, attributes) == 0 && attributes->mq_msgsize == 64);
    CHECK(mq_setattr(queue, &(struct mq_attr){ 0 }, place()) == 0);
}

static void of_what_is_shared(void)
{
    int queue = msgget(IPC_PRIVATE, 0600), shared = shmget(IPC_PRIVATE, 100, 0600), set = semget(IPC_PRIVATE, 4, 0600);
    struct msqid_ds *of_queue = place();
    struct shmid_ds *of_memory = place();
    struct semid_ds *of_set = place();
    CHECK(queue < 0 || msgctl(queue, IPC_STAT, of_queue) == 0);
    CHECK(shared < 0 || (shmctl(shared, IPC_STAT, of_memory) == 0 && of_memory->shm_segsz == 100));
    CHECK(set < 0 || (semctl(set, 0, IPC_STAT, of_set) == 0 && of_set->sem_nsems == 4));
    unsigned short *values = place();
    CHECK(set < 0 || (semctl(set, 2, SETVAL, 5) == 0 && semctl(set, 0, GETALL, values) == 0 && values[2] == 5));
    msgctl(queue, IPC_RMID, NULL);
    shmctl(shared, IPC_RMID, NULL);
    semctl(set, 0, IPC_RMID);
}

extern int __getgroups_chk(int most, gid_t *into, size_t room);
static void of_processes(void)
{
    char *name = place();
    struct rlimit64 *limit = place();
    CHECK(prctl(PR_SET_NAME, "copies") == 0 && prctl(PR_GET_NAME, name) == 0 && strcmp(name, "copies") == 0);
    unsigned *size = place();
    CHECK((prctl(PR_SET_MM, PR_SET_MM_MAP_SIZE, size, 0, 0) == 0 && *size > 0) || errno == EINVAL);
#ifndef PR_GET_AUXV
#define PR_GET_AUXV 0x41555856
#endif
    CHECK(prctl(PR_GET_AUXV, before_pages(16), 1000, 0, 0) > 0 || errno == EINVAL);
    CHECK(prlimit64(0, RLIMIT_NOFILE, NULL, limit) == 0 && limit->rlim_cur > 0);
    CHECK(__getgroups_chk(100, place(), 100 * sizeof(gid_t)) >= 0);
}

/* What a process that is traced has in its registers. */
static void of_a_traced_one(void)
{
    struct user_regs_struct *registers = place(), *set = (void *)before_pages(0);
    struct iovec *where = place();
    *where = (struct iovec){ set, sizeof *set };
    pid_t child = fork();
    if (child == 0) {
        ptrace(PTRACE_TRACEME, 0, NULL, NULL);
        raise(SIGSTOP);
        _exit(0);
    }
    waitpid(child, NULL, 0);
    CHECK(ptrace(PTRACE_GETREGS, child, NULL, registers) == 0 && registers->rsp != 0);
    CHECK(ptrace(PTRACE_GETREGSET, child, (void *)NT_PRSTATUS, where) == 0 && where->iov_len == sizeof *set && set->rsp == registers->rsp);
    kill(child, SIGKILL);
    waitpid(child, NULL, 0);
}

/* A process's number is told. */
static int do_nothing(void *unused) { return unused != NULL; }
static void of_a_cloned_one(void)
{
    static char stack[65536];
    pid_t *number = (void *)before_pages(0), child = clone(do_nothing, stack + sizeof stack, CLONE_PARENT_SETTID | SIGCHLD, NULL, number);
    CHECK(child > 0 && *number == child && waitpid(child, NULL, 0) == child);
}

extern int capget(void *version, void *into), arch_prctl(int option, unsigned long *into), modify_ldt(int what, void *into, unsigned long bytes);
static void of_what_few_ask(void)
{
    struct timespec *slice = place();
    struct timex *clock = place(), *other = place();
    unsigned char *is_there = place();
    char *entries = place();
    struct file_handle *handle = place();
    uint32_t *version = place();
    off_t *from = place();
    int folder = open("/", O_RDONLY | O_DIRECTORY);
    CHECK(sched_rr_get_interval(0, slice) == 0);
    CHECK(adjtimex(clock) >= 0 && clock->tick > 0 && clock_adjtime(CLOCK_REALTIME, other) >= 0 && ntp_adjtime(place()) >= 0);
    CHECK(mincore((void *)((uintptr_t)ordinary & ~(uintptr_t)4095), 1, is_there) == 0 && (*is_there & 1));
    CHECK(getdirentries(folder, entries, 1000, from) > 0 && getdirentries64(folder, place(), 1000, place()) >= 0);
    enum { GET_FS = 0x1003, READ = 0, WRITE = 1 };
    unsigned long *base = (void *)before_pages(0);
    unsigned segment[4] = { 0, 4096, 100, 1 };
    CHECK(arch_prctl(GET_FS, base) == 0 && *base != 0);
    CHECK(modify_ldt(WRITE, segment, sizeof segment) != 0 || modify_ldt(READ, before_pages(0), 8) == 8);
    CHECK(capget(version, NULL) == 0 && *version != 0);
    CHECK(name_to_handle_at(AT_FDCWD, "/", handle, place(), 0) != 0 && errno != EFAULT);
    close(folder);
}

static void of_old_names(void)
{
    int (*by_path)(int, const char *, struct stat *), (*by_file)(int, int, struct stat *);
    void *path = dlsym(RTLD_DEFAULT, "__xstat"), *file = dlsym(RTLD_DEFAULT, "__fxstat");
    struct stat *one = place(), *other = place(), root;
    int opened = open("/", O_RDONLY);
    memcpy(&by_path, &path, sizeof path);
    memcpy(&by_file, &file, sizeof file);
    CHECK(path && file && stat("/", &root) == 0);
    CHECK(by_path(1, "/", one) == 0 && one->st_ino == root.st_ino);
    CHECK(by_file(1, opened, other) == 0 && other->st_ino == root.st_ino);
    close(opened);
}

/* A socket's filter, whose instructions are counted. */
static void of_a_filter(void)
{
    enum { LENGTH = 2000 };
    static struct sock_filter all[LENGTH];
    struct sock_filter *told = (void *)before_pages(LENGTH);
    struct sock_fprog program = { LENGTH, all };
    socklen_t length = LENGTH;
    for (int k = 0; k < LENGTH; k++) all[k] = (struct sock_filter){ .code = BPF_RET | BPF_K, .k = 100 };
    int file = socket(AF_UNIX, SOCK_DGRAM, 0);
    CHECK(setsockopt(file, SOL_SOCKET, SO_ATTACH_FILTER, &program, sizeof program) == 0);
    begin();
    CHECK(getsockopt(file, SOL_SOCKET, SO_GET_FILTER, told, &length) == 0 && length == LENGTH && memcmp(told, all, sizeof all) == 0);
    end();
    close(file);
}

/* Where a file lies on its disk, in more places than a few. */
static void of_a_long_list(void)
{
    enum { PIECES = 4 };
    struct fiemap *list = (void *)before_pages(sizeof *list);
    int file = file_with("");
    for (int k = 0; k < PIECES; k++) CHECK(pwrite(file, "x", 1, (off_t)k * 65536) == 1);
    *list = (struct fiemap){ .fm_length = UINT64_MAX, .fm_flags = FIEMAP_FLAG_SYNC, .fm_extent_count = PIECES };
    begin();
    CHECK(ioctl(file, FS_IOC_FIEMAP, list) == 0 ? list->fm_extents[PIECES - 1].fe_length > 0 : errno == EOPNOTSUPP || errno == ENOTTY);
    end();
    close(file);
}

/* Sets for more files than one of the C library's has. */
static void of_long_sets(void)
{
    enum { FILES = 15000, SET = 128 };
    struct rlimit limit;
    int ends[2];
    if (getrlimit(RLIMIT_NOFILE, &limit) != 0 || limit.rlim_max <= FILES || pipe(ends) != 0) return;
    limit.rlim_cur = limit.rlim_max;
    CHECK(setrlimit(RLIMIT_NOFILE, &limit) == 0 && write(ends[1], "x", 1) == 1);
    int high = fcntl(ends[0], F_DUPFD, FILES);
    unsigned long *one = (void *)before_pages(SET), *other = (void *)before_pages(SET), bit = 1ul << high % 64;
    one[high / 64] = other[high / 64] = bit;
    begin();
    CHECK(select(high + 1, (void *)one, NULL, NULL, NULL) == 1 && one[high / 64] == bit);
    CHECK(pselect(high + 1, (void *)other, NULL, NULL, NULL, NULL) == 1 && other[high / 64] == bit);
    end();
    close(high);
    close(ends[0]);
    close(ends[1]);
}

/* A thread waits in one call with many places to write to, which have to stay open through cycles that others make. */
enum { PARTS = 32, MESSAGES = 8, BETWEEN = 10 };
static int wires[2];
static _Atomic int waits;
static void *read_many(void *unused)
{
    struct iovec parts[PARTS];
    for (int k = 0; k < PARTS; k++) parts[k] = (struct iovec){ ordinary[BETWEEN * k], 1 };
    waits = 1;
    ssize_t came = readv(wires[0], parts, PARTS);
    for (int k = 0; k < PARTS && came == PARTS; k++) came -= ordinary[BETWEEN * k][0] != 'a' + k % 26;
    return (void *)(came == PARTS ? unused : wires);
}
static void *receive_many(void *unused)
{
    struct mmsghdr messages[MESSAGES];
    struct iovec parts[MESSAGES];
    memset(messages, 0, sizeof messages);
    for (int k = 0; k < MESSAGES; k++) {
        parts[k] = (struct iovec){ ordinary[BETWEEN * k + 5], 1 };
        messages[k].msg_hdr = (struct msghdr){ .msg_iov = &parts[k], .msg_iovlen = 1, .msg_name = ordinary[BETWEEN * k + 6], .msg_namelen = 100 };
    }
    waits = 1;
    int came = recvmmsg(wires[0], messages, MESSAGES, 0, NULL);
    for (int k = 0; k < MESSAGES && came == MESSAGES; k++) came -= ordinary[BETWEEN * k + 5][0] != 'a' + k;
    return (void *)(came == MESSAGES ? unused : wires);
}
/* Calls that were left by a jump are over: as many of them as there may be don't keep a later one's page from staying open. */
static jmp_buf back;
static ssize_t leave(void *cookie, char *into, size_t bytes)
{
    (void)cookie, (void)into, (void)bytes;
    longjmp(back, 1);
}
static void *read_behind_jumps(void *unused)
{
    enum { JUMPS = 20 };
    static volatile int left = 0;
    char *into = ordinary[BETWEEN * (JUMPS + 1)];
    FILE *stream = fopencookie(NULL, "r", (cookie_io_functions_t){ .read = leave });
    while (left < JUMPS)
        if (setjmp(back) != 0 || fread(ordinary[BETWEEN * left], 1, 1000, stream) > 0) left++;
    waits = 1;
    return read(wires[0], into, 1) == 1 && *into == 'a' ? unused : wires;
}
static void beside_cycles(void *(*work)(void *), int count)
{
    pthread_t thread;
    void *answer = wires;
    waits = 0;
    GC_pthread_create(&thread, NULL, work, NULL);
    while (!waits) usleep(100);
    usleep(50000);
    for (int k = 0; k < 3; k++) {
        GC_start_incremental_collection();
        while (GC_collect_a_little()) continue;
    }
    GC_gcollect();
    GC_start_incremental_collection();
    char all[PARTS];
    for (int k = 0; k < count; k++) all[k] = (char)('a' + k % 26);
    if (work != receive_many) CHECK(write(wires[1], all, (size_t)count) == count);
    for (int k = 0; k < count && work == receive_many; k++) CHECK(send(wires[1], &all[k], 1, 0) == 1);
    GC_pthread_join(thread, &answer);
    CHECK(answer == NULL);
    end();
}

int main(void)
{
    pid_t watcher = watch(120);
    GC_INIT();
    GC_enable_incremental();
    to_send = GC_malloc(2000);
    to_send->msg_hdr.msg_iov = GC_malloc(sizeof(struct iovec));
    *to_send->msg_hdr.msg_iov = (struct iovec){ "hello", 5 };
    to_send->msg_hdr.msg_iovlen = 1;
    for (int k = 0; k < LONGS; k++) longs[k] = GC_malloc(LONG);
    begin();
    of_copies();
    of_messages();
    of_queues();
    of_what_is_shared();
    of_processes();
    of_old_names();
    of_a_traced_one();
    of_a_cloned_one();
    of_what_few_ask();
    end();
    of_long_sets();
    of_a_long_list();
    of_a_filter();
    if (pipe(wires) == 0) beside_cycles(read_many, PARTS);
    if (pipe(wires) == 0) beside_cycles(read_behind_jumps, 1);
    if (socketpair(AF_UNIX, SOCK_DGRAM, 0, wires) == 0) beside_cycles(receive_many, MESSAGES);
    kill(watcher, SIGKILL);
    return check_ends();
}
