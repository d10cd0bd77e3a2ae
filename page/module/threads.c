/* Threads, for a program that can start some where it is asked to: the page's command line asks for none, and none can be started
 * here. `pthread_create` says so as a system does that has no room for one more. A lock that is taken asks the system to wait; with
 * one thread no lock is ever found taken, and each call of the system is refused. */
typedef unsigned long size;

enum { NO_SUCH_THREAD = 3, TRY_AGAIN = 11, NO_SUCH_CALL = 38 };

void rattle_set_errno(int error);

int pthread_attr_init(void *attributes) { return 0; }
int pthread_attr_setguardsize(void *attributes, size bytes) { return 0; }
int pthread_attr_setstacksize(void *attributes, size bytes) { return 0; }
int pthread_attr_destroy(void *attributes) { return 0; }
int pthread_create(void *thread, const void *attributes, void *(*begin)(void *), void *given) { return TRY_AGAIN; }
int pthread_detach(size thread) { return NO_SUCH_THREAD; }
int pthread_join(size thread, void **answer) { return NO_SUCH_THREAD; }
size pthread_self(void) { return 1; }
int sched_yield(void) { return 0; }
long syscall(long number, void *word, long operation, long value, void *limit, ...) {
  rattle_set_errno(NO_SUCH_CALL);
  return -1;
}
void abort(void) { __builtin_trap(); }
