/* Bench case 1 through the library: prints the answer, a line for each section. */
#include <inttypes.h>
#include <stdio.h>

#include "service.h"

/* function panel(props) { const list = [props]; list.push(..); return list; } */
static const uint32_t sheet[] = {
    2, 0, 1,                                             /* flags: no function expression, validations */
    3, 0, 0, 0, 0, 0, 0, 0, 0, 0,                        /* identifiers: 0 props, 1 list, 2 result */
    0,                                                   /* inner functions */
    1, 0, 0, 5,                                          /* parameters: props, at span 5 */
    0,                                                   /* context */
    1, 2, 0, 0,                                          /* returns: result */
    1,                                                   /* blocks */
    0, 0, 2,                                             /* number 0, no phis, two instructions */
    1, 0, 0, 0,                                          /* at order 1, lvalue place 0 */
    0, 0, SERVICE_INSTRUCTION_PLAIN,                     /* no value lvalues, no operands */
    2,                                                   /* two effects */
    SERVICE_KIND_CREATE, 1, 0, 0, 0, 0, 0, 0,            /* list */
    SERVICE_KIND_CAPTURE, 0, 0, 0, 1, 0, 0, 0,           /* props into list */
    2, 0, 0, 0,                                          /* at order 2, lvalue place 0 */
    0, 0, SERVICE_INSTRUCTION_PLAIN,                     /* no value lvalues, no operands */
    1,                                                   /* one effect */
    SERVICE_KIND_MUTATE_TRANSITIVE, 1, 0, 7, 0, 0, 0, 0, /* list, at span 7 */
    SERVICE_TERMINAL_RETURN, 3, 1, 0, 0, 0, 0,           /* at order 3, list, no effects, no operands */
};

static const struct {
    const char *name;
    size_t words; /* of a record */
} sections[] = {
    {"ranges", 2},  {"params", 3}, {"context", 3},      {"diagnostics", 2}, {"effects", 8},
    {"walks", 1},   {"phis", 3},   {"instructions", 3}, {"terminals", 3},   {"inner", 3},
};

#define COUNT(array) (sizeof(array) / sizeof((array)[0]))

int main(void) {
    static uint32_t workspace[SERVICE_LEAST_WORKSPACE];
    static uint32_t answer[16384];

    struct Caller callers[] = {service_new()}; /* one caller, at position 0 */
    struct Reply reply = service_infer(callers, COUNT(callers), 0, sheet, COUNT(sheet), workspace,
                                       COUNT(workspace), answer, COUNT(answer));
    if (reply.refusal != SERVICE_ACCEPTED) {
        printf("refused %" PRIu32 "\n", reply.refusal);
        return 1;
    }
    const uint32_t *at = answer;
    for (size_t i = 0; i < COUNT(sections); i++) {
        size_t words = *at * sections[i].words;
        printf("%s %" PRIu32, sections[i].name, *at++);
        while (words-- > 0) {
            printf(" %" PRIu32, *at++);
        }
        printf("\n");
    }
    return 0;
}
