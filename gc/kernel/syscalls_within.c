// Functions of the C library that hand the program's places on to the kernel, as in syscalls.c, where one wouldn't look for a call of it: times
// of C11, answers of name servers, of who keeps users and names of machines (nscd), quotas and the kernel's log. Only in libmpgc.so.
#include "next.h"
#include <grp.h>
#include <netdb.h>
#include <netinet/in.h>
#include <pwd.h>
#include <resolv.h>
#include <sys/klog.h>
#include <sys/quota.h>
#include <time.h>

OPENS(int, timespec_get, (struct timespec *into, int base), (into, base), into, sizeof *into)
SHOWN int timespec_getres(struct timespec *into, int base);
OPENS(int, timespec_getres, (struct timespec *into, int base), (into, base), into, sizeof *into)
OPENS(int, klogctl, (int what, char *into, int bytes), (what, into, bytes), into, bytes > 0 ? (size_t)bytes : 0)

// What it tells is as long as the command says: it is no more than this.
SHOWN int quotactl(int command, const char *device, int id, caddr_t into)
{
    enum { MOST = 256 };
    NEXT(int, quotactl, (int, const char *, int, caddr_t));
    if (GC_is_heap_ptr(into)) mpgc_will_write(into, MOST);
    SAYS(next(command, device, id, into));
}

// Two ways: for the state of the thread, or a given one. The old names of these (`__res_query`) are left alone, since the loader doesn't tell of what
// stands behind one.
#define ANSWERS_BY(name, words, values) \
    SHOWN int name words; \
    OPENS(int, name, words, values, into, bytes > 0 ? (size_t)bytes : 0)
#define ANSWERS(name, words, values, with_state, and_state) \
    ANSWERS_BY(res_##name, words, values) \
    ANSWERS_BY(res_n##name, with_state, and_state)
#undef res_query
#undef res_search
#undef res_querydomain
#undef res_send
#undef res_nquery
#undef res_nsearch
#undef res_nquerydomain
#undef res_nsend
ANSWERS(query, (const char *host, int class, int type, unsigned char *into, int bytes), (host, class, type, into, bytes),
        (res_state state, const char *host, int class, int type, unsigned char *into, int bytes), (state, host, class, type, into, bytes))
ANSWERS(search, (const char *host, int class, int type, unsigned char *into, int bytes), (host, class, type, into, bytes),
        (res_state state, const char *host, int class, int type, unsigned char *into, int bytes), (state, host, class, type, into, bytes))
ANSWERS(querydomain, (const char *host, const char *domain, int class, int type, unsigned char *into, int bytes),
        (host, domain, class, type, into, bytes),
        (res_state state, const char *host, const char *domain, int class, int type, unsigned char *into, int bytes),
        (state, host, domain, class, type, into, bytes))
ANSWERS(send, (const unsigned char *question, int length, unsigned char *into, int bytes), (question, length, into, bytes),
        (res_state state, const unsigned char *question, int length, unsigned char *into, int bytes), (state, question, length, into, bytes))

// What is kept of users, groups, machines and services is read into the buffer, where it comes from a process that keeps it.
#define KEPT(name, kind, words, values) \
    OPENS(int, name, (words, struct kind *into, char *buffer, size_t bytes, struct kind **found), (values, into, buffer, bytes, found), buffer, bytes)
#define KEPT_OF_MACHINE(name, words, values) \
    OPENS(int, name, (words, struct hostent *into, char *buffer, size_t bytes, struct hostent **found, int *why), \
          (values, into, buffer, bytes, found, why), buffer, bytes)
#define TWO(first, second) first, second
#define THREE(first, second, third) first, second, third
KEPT(getpwnam_r, passwd, const char *name, name)
KEPT(getpwuid_r, passwd, uid_t user, user)
KEPT(getgrnam_r, group, const char *name, name)
KEPT(getgrgid_r, group, gid_t group, group)
KEPT(getservbyname_r, servent, TWO(const char *name, const char *by), TWO(name, by))
KEPT(getservbyport_r, servent, TWO(int port, const char *by), TWO(port, by))
KEPT_OF_MACHINE(gethostbyname_r, const char *name, name)
KEPT_OF_MACHINE(gethostbyname2_r, TWO(const char *name, int family), TWO(name, family))
KEPT_OF_MACHINE(gethostbyaddr_r, THREE(const void *address, socklen_t length, int family), THREE(address, length, family))
