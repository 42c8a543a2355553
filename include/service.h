/* The proved inference of mutable ranges, for hosts in C and C++.
 *
 * Link with target/staticlib/libservice.a, which `tools/archive` writes (x86-64).
 *
 * A host keeps one record, struct Caller, for each of its callers. It lends the records, a workspace
 * and an answer buffer to every call, which names its caller by position, from 0; class loads and
 * drawings need no record. The library keeps nothing, allocates nothing and returns for every sheet,
 * whatever its words are, and every position. Calls over different records and buffers may run at
 * once.
 *
 * docs/FORMAT.md describes the words of a sheet and of an answer. Every macro and every constant
 * here begins with SERVICE_.
 */
#ifndef SERVICE_MUTABLE_RANGES_H
#define SERVICE_MUTABLE_RANGES_H

#include <stddef.h>
#include <stdint.h>

#ifdef __cplusplus
extern "C" {
#endif

/* The version of this header and of the words that it speaks of: 10,000 times the first number
 * and 100 times the second and the third; 100 is 0.1.0. */
#define SERVICE_VERSION 100

/* How many words a workspace has at least, and a sheet at most. */
#define SERVICE_LEAST_WORKSPACE 16384
#define SERVICE_MOST_SHEET 16384

/* How many words an answer has at most, some 68 megabytes: with a buffer so long no call is refused
 * 9. 16,384 words are enough for nearly every sheet. Where they are not, lend more and call again,
 * 16 times as many each time until this number is reached: a refused call takes no serial and
 * leaves nothing behind. Every word lent is cleared, so that a long buffer for every call would
 * cost time. A host that wants no answer so long takes 9 as the last word. */
#define SERVICE_MOST_ANSWER 16949266

/* The arguments of a class load (service_load), and how many words its sheet has at most. */
#define SERVICE_LEAST_LOAD_IDENTIFIERS 2
#define SERVICE_MOST_LOAD_IDENTIFIERS 512
#define SERVICE_LEAST_LOAD_EFFECTS 1
#define SERVICE_MOST_LOAD_EFFECTS 512
#define SERVICE_MOST_LOAD 9749

/* How many bytes a drawing (service_dot) has at most: its first and last line, a line of at most 8 for
 * each of 512 identifiers, and one of at most 39 for each of 1,024 edges, whose index has at most
 * four digits. That is counted, not proved: where a call is refused 9 all the same, lend more. */
#define SERVICE_MOST_DRAWING 44046

/* Why a call was refused. 11 is checked first, then 1 and 2; 3 to 6, and 8 for mutations and renders,
 * come from one reading from left to right, where the first faulty word decides, and for one word the
 * lower number; then come 7, 8 for the edges and entries that are held, 10 and 9. */
enum ServiceRefusal {
    SERVICE_ACCEPTED = 0,
    /* The workspace has fewer than 16,384 words. */
    SERVICE_REFUSED_SHORT_WORKSPACE = 1,
    /* The sheet has more than 16,384 words. */
    SERVICE_REFUSED_LONG_SHEET = 2,
    /* The sheet ends where a word is due. */
    SERVICE_REFUSED_SHEET_ENDS = 3,
    /* A count is above its limit, or differs from a fixed count. */
    SERVICE_REFUSED_COUNT = 4,
    /* A word is outside its range. */
    SERVICE_REFUSED_OUT_OF_RANGE = 5,
    /* A block number is used a second time, or a phi names one predecessor twice. */
    SERVICE_REFUSED_USED_TWICE = 6,
    /* Words follow the last block. */
    SERVICE_REFUSED_WORDS_FOLLOW = 7,
    /* The sheet has over 512 mutations or 256 renders, or holds over 1,024 edges or entries. */
    SERVICE_REFUSED_TOTALS = 8,
    /* The answer buffer is shorter than the answer: see SERVICE_MOST_ANSWER. */
    SERVICE_REFUSED_SHORT_ANSWER = 9,
    /* Apply is among an instruction's effects. */
    SERVICE_REFUSED_APPLY = 10,
    /* The caller's position is outside the records. */
    SERVICE_REFUSED_OUTSIDE_RECORDS = 11
};

/* An identifier's type. */
enum ServiceType {
    SERVICE_TYPE_OTHER = 0,
    SERVICE_TYPE_PRIMITIVE = 1,
    SERVICE_TYPE_JSX = 2
};

/* How a place uses its identifier. The traits word is one of these, plus SERVICE_REACTIVE if the
 * place is reactive. */
enum ServiceEffect {
    SERVICE_EFFECT_UNKNOWN = 0,
    SERVICE_EFFECT_FREEZE = 1,
    SERVICE_EFFECT_READ = 2,
    SERVICE_EFFECT_CAPTURE = 3,
    SERVICE_EFFECT_CONDITIONALLY_MUTATE_ITERATOR = 4,
    SERVICE_EFFECT_CONDITIONALLY_MUTATE = 5,
    SERVICE_EFFECT_MUTATE = 6,
    SERVICE_EFFECT_STORE = 7
};

#define SERVICE_REACTIVE 8

/* The kind of an effect: its first word. Behind each its places and its extra word, the last. Kinds
 * 14 to 16 have the instance of their diagnostic in the first word of the second place. */
enum ServiceKind {
    SERVICE_KIND_FREEZE = 0,                          /* 1; a reason */
    SERVICE_KIND_MUTATE = 1,                          /* 1; SERVICE_ASSIGN_CURRENT_PROPERTY or 0 */
    SERVICE_KIND_MUTATE_CONDITIONALLY = 2,            /* 1; 0 */
    SERVICE_KIND_MUTATE_TRANSITIVE = 3,               /* 1; 0 */
    SERVICE_KIND_MUTATE_TRANSITIVE_CONDITIONALLY = 4, /* 1; 0 */
    SERVICE_KIND_CAPTURE = 5,                         /* 2: from, into; 0 */
    SERVICE_KIND_ALIAS = 6,                           /* 2: from, into; 0 */
    SERVICE_KIND_MAYBE_ALIAS = 7,                     /* 2: from, into; 0 */
    SERVICE_KIND_ASSIGN = 8,                          /* 2: from, into; 0 */
    SERVICE_KIND_CREATE = 9,                          /* 1; SERVICE_CREATED(reason, value) */
    SERVICE_KIND_CREATE_FROM = 10,                    /* 2: from, into; 0 */
    SERVICE_KIND_IMMUTABLE_CAPTURE = 11,              /* 2: from, into; 0 */
    SERVICE_KIND_APPLY = 12,                          /* 0; 0 */
    SERVICE_KIND_CREATE_FUNCTION = 13,                /* 1; an inner function's number */
    SERVICE_KIND_MUTATE_FROZEN = 14,                  /* 1; a diagnostic's identity */
    SERVICE_KIND_MUTATE_GLOBAL = 15,                  /* 1; a diagnostic's identity */
    SERVICE_KIND_IMPURE = 16,                         /* 1; a diagnostic's identity */
    SERVICE_KIND_RENDER = 17                          /* 1; 0 */
};

#define SERVICE_ASSIGN_CURRENT_PROPERTY 1

/* Why a value is what it is: the extra word of Freeze, and a part of that of Create. */
enum ServiceReason {
    SERVICE_REASON_KNOWN_RETURN_SIGNATURE = 0,
    SERVICE_REASON_STATE = 1,
    SERVICE_REASON_REDUCER_STATE = 2,
    SERVICE_REASON_CONTEXT = 3,
    SERVICE_REASON_EFFECT = 4,
    SERVICE_REASON_HOOK_CAPTURED = 5,
    SERVICE_REASON_HOOK_RETURN = 6,
    SERVICE_REASON_GLOBAL = 7,
    SERVICE_REASON_JSX_CAPTURED = 8,
    SERVICE_REASON_STORE_LOCAL = 9,
    SERVICE_REASON_REACTIVE_FUNCTION_ARGUMENT = 10,
    SERVICE_REASON_OTHER = 11
};

/* What a value is: the other part of Create's extra word. */
enum ServiceValue {
    SERVICE_VALUE_MUTABLE = 0,
    SERVICE_VALUE_FROZEN = 1,
    SERVICE_VALUE_PRIMITIVE = 2,
    SERVICE_VALUE_MAYBE_FROZEN = 3,
    SERVICE_VALUE_GLOBAL = 4,
    SERVICE_VALUE_CONTEXT = 5
};

#define SERVICE_CREATED(reason, value) (6 * (reason) + (value))

/* What an instruction's value is: the word behind its lvalue, value lvalues and operands. */
enum ServiceInstruction {
    SERVICE_INSTRUCTION_PLAIN = 0,        /* no word */
    SERVICE_INSTRUCTION_FUNCTION = 1,     /* an inner function's number */
    SERVICE_INSTRUCTION_STORE_CONTEXT = 2 /* the identifier that is stored */
};

/* An instruction's count of effects if its list is absent, which is not the empty list of count 0:
 * no effects follow, and the pass over operands leaves the instruction after its lvalues and the
 * Read marks. A terminal's list is never absent. */
#define SERVICE_ABSENT_EFFECTS 4294967295

/* How a block ends. */
enum ServiceTerminal {
    SERVICE_TERMINAL_OTHER = 0,      /* an order, a count of operands and the operands */
    SERVICE_TERMINAL_RETURN = 1,     /* an order, a place, a count of effects and the effects, 0 */
    SERVICE_TERMINAL_MAYBE_THROW = 2 /* an order, a count of effects and the effects, 0 */
};

/* A caller's record: its next serial. Make it with service_new, or restore one that was kept; every
 * value is allowed. */
struct Caller {
    uint32_t next;
};

/* What a call says. */
struct Reply {
    /* One of enum ServiceRefusal: 0 if the call was accepted. */
    uint32_t refusal;
    /* The accepted call's serial: its caller's `next` as it was before. After 4,294,967,295 comes 0.
     * It is 0 for a refusal, and for a class load and a drawing, which have none. */
    uint32_t serial;
    /* How many words the answer, or the class load, has, or how many bytes the drawing; 0 for a
     * refusal. */
    size_t length;
};

/* One call, for the caller at a position: that of its record among `count` ones, from 0. The sheet is
 * only read. Afterwards the whole workspace is 0, and so is the answer buffer from `length` on; what
 * they held before does not matter. An accepted call moves the caller's record to the next serial, a
 * refusal leaves it as it was; every other record stays as it was. A caller's serials count its own
 * accepted calls.
 *
 * A position that is not below `count` is refused 11, before anything else is looked at; so is every
 * position if `count` is 0, and `callers` may be NULL then. No other pointer is NULL. The records are
 * `count` ones, the buffers have as many words as said, and neither buffer overlaps the other, the
 * sheet or the records.
 *
 * An answer has ten sections, each a count and then so many records: ranges (2 words: start,
 * end), params and context (places of 3 words), diagnostics (2: identity, instance), effects (8),
 * walks (1), and of places phis, instructions, terminals and inner. */
struct Reply service_infer(struct Caller *callers, size_t count, size_t position,
                           const uint32_t *sheet, size_t sheet_words,
                           uint32_t *workspace, size_t workspace_words,
                           uint32_t *answer, size_t answer_words);

/* A class load: the sheet that a seed, a count of identifiers and a count of effects stand for, the
 * same on every machine. The seed is any number; the counts are from SERVICE_LEAST_LOAD_IDENTIFIERS
 * to SERVICE_MOST_LOAD_IDENTIFIERS and from SERVICE_LEAST_LOAD_EFFECTS to SERVICE_MOST_LOAD_EFFECTS,
 * else the call is refused 5. A sheet has 21 + 3 * identifiers + 16 * effects words; with fewer words
 * lent the call is refused 9, with SERVICE_MOST_LOAD never. `length` says how many it has; there is no
 * serial, so that `serial` is 0. Afterwards the words from `length` on, all of them after a refusal,
 * are 0; what they held before does not matter.
 *
 * service_infer accepts every such sheet for every caller inside the records: its answer has at most
 * 47 + 2 * identifiers + 4 * effects words. `sheet` is not NULL and has as many words as said. */
struct Reply service_load(uint32_t seed, uint32_t identifiers, uint32_t effects,
                          uint32_t *sheet, size_t sheet_words);

/* The same for the caller at a position, as in service_infer: refused 11 if the position is not below
 * `count`, before 5 and 9, with all words lent 0 afterwards. The records are only read. */
struct Reply service_load_for(const struct Caller *callers, size_t count, size_t position,
                              uint32_t seed, uint32_t identifiers, uint32_t effects,
                              uint32_t *sheet, size_t sheet_words);

/* A drawing: the graph of a sheet as a DOT file, which Graphviz draws. `text` has the line
 * `digraph g {`, a line like `  n0;` for each node in rising identifier, a line like
 * `  n0 -> n1 [label="capture 0"];` for each forward edge, by node and in the order in which they are
 * stored (capture, alias or maybe, and the index), and the line `}`. Every line ends in one line feed.
 * `length` says how many bytes that is; there is no byte 0 at the end of a text that fills its buffer.
 *
 * The sheet is refused with 1 to 8 as by service_infer, and 9 if fewer bytes are lent than the text
 * has; Apply (10) is no refusal here. It names no caller and takes no serial: 11 is never given, and
 * `serial` is 0. Afterwards the whole workspace is 0, and so is `text` from `length` on, all of it after
 * a refusal; what they held before does not matter.
 *
 * No pointer is NULL. The sheet and the workspace have as many words as said, the text as many bytes,
 * and neither of the last two overlaps the other or the sheet. */
struct Reply service_dot(const uint32_t *sheet, size_t sheet_words,
                         uint32_t *workspace, size_t workspace_words,
                         uint8_t *text, size_t text_bytes);

/* A new record: its caller's first serial is 0. */
struct Caller service_new(void);

/* SERVICE_LEAST_WORKSPACE and SERVICE_MOST_SHEET of the library that is linked. */
size_t service_least_workspace(void);
size_t service_most_sheet(void);

/* The layout that the library was compiled for. */
#if defined(__cplusplus) && __cplusplus >= 201103L
#define SERVICE_LAYOUT(fact) static_assert(fact, #fact)
#elif defined(__STDC_VERSION__) && __STDC_VERSION__ >= 201112L
#define SERVICE_LAYOUT(fact) _Static_assert(fact, #fact)
#endif
#ifdef SERVICE_LAYOUT
SERVICE_LAYOUT(sizeof(struct Caller) == 4);
SERVICE_LAYOUT(offsetof(struct Caller, next) == 0);
SERVICE_LAYOUT(sizeof(struct Reply) == 16);
SERVICE_LAYOUT(offsetof(struct Reply, refusal) == 0);
SERVICE_LAYOUT(offsetof(struct Reply, serial) == 4);
SERVICE_LAYOUT(offsetof(struct Reply, length) == 8);
#undef SERVICE_LAYOUT
#endif

#ifdef __cplusplus
}
#endif

#endif
