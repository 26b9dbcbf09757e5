/* record.h: entries and the transcript; faults and notes; how a run ends badly, and where threads are then. */
#ifndef DRIVERS_RECORD_RECORD_H
#define DRIVERS_RECORD_RECORD_H

#include "host.h"

/* callers.c */
const char *callers_of(const Call *c);
void keep_callers(Callers *kept, const Call *c);
const char *place_with_callers(WDM_SITE at, const Callers *kept);
bool is_helper(const void *at);
int where_is(bool in_handler, const void **at, int most);

/* entry_places.c */
void decided_here(Asked *a);
void decided_by(Asked *a, const Frame *f);
void write_places(const char *path, size_t n);
void add_line(unsigned long order, void (*put_one)(FILE *o, size_t i), size_t i); /* of that file, where its order says */
void put_json_text(FILE *o, const char *text);
void put_call_site(FILE *o, const CallSite *at);

/* faults.c */
void be_silent(void);
const char *who(int device);
const char *who_of(const Packet *p, int device);
const char *who_calls(void);
const char *what_runs(const Frame *f);
const char *place(WDM_SITE at);
FILE *open_high(const char *path);
void write_error(const char *text, size_t n);
__attribute__((format(printf, 1, 2))) void say(const char *how, ...);
__attribute__((format(printf, 3, 4))) void fault(const char *rule, const Packet *p, const char *how, ...);
__attribute__((format(printf, 4, 5))) void fault_of(const char *rule, const Packet *p, const Frame *f, const char *how,
                                                    ...);
__attribute__((format(printf, 5, 6))) void fault_at(const char *rule, const Packet *p, const char *call, WDM_SITE at,
                                                    const char *how, ...);
__attribute__((format(printf, 2, 3))) void note(const char *key, const char *how, ...);
void tell_repeats(void);
bool is_expected_refusal(const char *name);
size_t expected_entries(void);
void tell_expected(FILE *out);

/* function_names.c */
const char *function_name(const void *address);
bool is_in_program(const void *address);
bool is_code_of_one(const void *a, const void *b);
unsigned long place_in_program(const void *address);
const char *major_name(int major);
const char *path_in_host(const char *file);
bool is_hosts_file(const char *file);

/* hangs.c */
void tell_packets(void);
void hang(Woken why, unsigned long began, WDM_SITE at);
bool stands_still_since(unsigned long began);
bool is_cancelled_and_held(const Packet *p);
void tell_cancelled_and_held(const Packet *p);
CallSite last_call_of(const Packet *p, int device);

/* last_words.c */
const void *instruction_of(const void *context);
void put_places(char *text, size_t size, const void *const *at, int n);
void crashed(int number, siginfo_t *info, void *context);
void watch_for_the_end(void);
void watch_thread(void);
void thread_is_gone(int seat);
void begin_last_words(void);
bool has_gone_on(int seat, uint64_t called, uint64_t caller);
void run_is_finished(void);
void tell_others(void);
__attribute__((noreturn)) void end_process(int status);

/* leaving.c */
int fork_run(void);
void tell_jump(void);

/* limits.c */
int most_points(void); /* that a run may have */
/* The run ends here, since the host does no more; why, or NULL. */
__attribute__((noreturn)) void reach_limit(const char *what);
const char *limit_reached(void);

/* recording.c */
Entry *begin(Op op, Packet *p, int by);
void seal(Entry *e, bool cancel);
void number_sends_through(int d);
Entry *answered(Entry *e, Reply reply, uint64_t answer);
void refuse(Entry *e, const char *name);
int ask(Entry *e, Packet *p, Kind kind, void *fn, int device, int location);
uint64_t number_of(const void *raw);
uint64_t word_of(const IO_STACK_LOCATION *l);
void look(Packet *p);

/* run_end.c */
__attribute__((noreturn)) void give_up(const char *why);
__attribute__((noreturn)) void stop_run(const char *why);
size_t write_out(void);

/* transcript.c */
void record_word(const char *act, int lock, PVOID tag, const char *reply, int by, int to);
uint64_t hash_transcript(size_t *n_entries); /* comes first, and gives ids their numbers */
void write_transcript(FILE *out);

#endif
