/* One node: it runs one component of a design by its own clock, and records its actions.

   A node's loop is:   reading = clock;
                       for each message that has come: pals_arrive(node, link, round, values, count, reading);
                       wake = pals_poll(node, reading);
                       sleep until the clock reads wake, or a message comes.
   The clock is read before messages are looked for, and this one reading goes to all calls of the turn.

   All readings are readings of the node's own clock, in nanoseconds. A reading below the previous one counts as the
   previous one. The code does not allocate, calls only the component's code and the hooks, and does not recurse. */
#ifndef PALS_NODE_H
#define PALS_NODE_H
#include "pals_adaptor.h"

/* The reading that never occurs, and the last alarm: 2^59 ns, 18 years. */
#define PALS_NEVER INT64_MAX
#define PALS_LAST_ALARM INT64_C(576460752303423488)

/* The maximum number of ports of a component, and the maximum rate. */
enum { PALS_MOST_PORTS = 64, PALS_MOST_RATE = 64 };

/* A link that a node sends on, and the out port whose values it takes. */
typedef struct {
    uint32_t number;
    uint32_t port;
} pals_target;

/* A component, as its listing has it. Times are in nanoseconds. */
typedef struct {
    const char *path;
    uint64_t design;          /* the identity of the design: the first 64 bits of the SHA-256 of its listing */
    uint32_t rate;            /* k: how many steps a round has */
    uint32_t sent;            /* k': how many of them a message carries */
    int64_t period;           /* T */
    int64_t step_period;      /* P */
    int64_t release;          /* c: the alarm and this are the reading from which on a round is sent */
    uint32_t ins;
    uint32_t outs;
    uint32_t vars;
    uint32_t links;
    uint32_t inputs;
    uint32_t targets;
    const pals_source *link;  /* in the order of the component's in ports */
    const pals_source *input;
    const pals_target *target;
    const pals_target *output; /* the root out ports that show the component, by their numbers */
    uint32_t outputs;
    uint32_t frame_size;       /* in bytes */
    void (*init)(void *frame);
    int32_t (*step)(void *frame, const pals_value in[], pals_value out[]);
    const struct pals_names *names; /* only for pals_lines; may be NULL */
} pals_component;

/* What a node does: it waits for a round, a step of one is begun, it is between two steps, all steps of a round are
   finished and it is not sent, all rounds are done, or the node has stopped. */
typedef enum { PALS_WAITING, PALS_RUNNING, PALS_BETWEEN, PALS_HOLDING, PALS_DONE, PALS_STOPPED } pals_phase;

/* What a call answers: it is done; or why it is not, and then nothing has changed, but that PALS_MISSED stops. */
typedef enum {
    PALS_OK,
    PALS_NOT_YET,      /* the reading is below the alarm, or the release */
    PALS_MISSED,       /* a start: the message of the round before is not there. The node has stopped */
    PALS_BUSY,         /* a start: a round is in hand */
    PALS_OVER,         /* a start: all rounds are done, or the node has stopped */
    PALS_NOT_BETWEEN,  /* a step: the node is not between two steps */
    PALS_NOT_RUNNING,  /* a finish: no step is begun */
    PALS_NOT_FINISHED  /* a send: no round is to be sent, or too few of its steps are finished */
} pals_answer;

/* The result of a message: it waits for the next start; it is a second copy, or too late to matter; it arrived before
   its round was started, and the node has stopped; or it is not a message of this node, or arrived after a stop. */
typedef enum { PALS_KEPT, PALS_IGNORED, PALS_EARLY, PALS_REFUSED } pals_arrived;

/* What a node does next. */
typedef enum { PALS_NOTHING, PALS_START, PALS_STEP, PALS_FINISH, PALS_SEND } pals_action;

/* The event of a record. PALS_ROW follows the last finish of a round: the frame and the outs then have the values at
   the end of the round. The events from PALS_HELD on are not actions of the theorem: a start with the last values of a
   link whose message is missing, a restart at a round, a step that trapped, a message that the transport did not
   accept, a stop by a clock that is not trusted, a round that is saved, and a restart with a saved round. */
typedef enum {
    PALS_STARTED, PALS_STEPPED, PALS_FINISHED, PALS_SENT, PALS_ARRIVED, PALS_ROW, PALS_STOP_EARLY, PALS_STOP_MISSED,
    PALS_HELD, PALS_RESTARTED, PALS_TRAPPED, PALS_UNSENT, PALS_STOP_CLOCK, PALS_SAVED, PALS_RESUMED
} pals_event;

/* The reaction of a node to a start that misses a message: it stops; or it takes the last values of the link and
   continues. */
typedef enum { PALS_STOPS, PALS_HOLDS } pals_policy;

/* A record: a line of a trace. */
typedef struct {
    pals_event event;
    uint32_t link;        /* of an arrival, a stop, PALS_HELD and PALS_UNSENT */
    uint64_t round;       /* in these, the round of the message */
    uint32_t step;        /* of PALS_STEPPED and PALS_TRAPPED */
    int32_t trap;         /* of PALS_TRAPPED */
    int64_t reading;      /* none in PALS_FINISHED and PALS_ROW */
    pals_arrived arrived; /* of PALS_ARRIVED */
} pals_record;

typedef struct pals_node pals_node;

/* The functions that a node calls. `user` is what pals_open was given. The last four may be NULL. */
typedef struct {
    /* Sends a message, and returns whether the transport accepted it. It has `count` values; the values of steps after
       k' are absent. */
    bool (*send)(void *user, uint32_t link, uint64_t round, const pals_value values[], uint32_t count);
    /* The value of an in port of the root in a round: called once, at the start of the round. */
    pals_value (*read)(void *user, uint32_t input, uint64_t round);
    /* Takes a record, which is valid until the call ends. */
    void (*record)(void *user, const pals_node *node, const pals_record *record);
    /* Takes the values of a root out port in a round, one for each step: called once a round, with the send, or after
       the last step if steps run after it. */
    void (*output)(void *user, uint32_t output, uint64_t round, const pals_value values[], uint32_t count);
    /* A step trapped: the component is halted, and its outputs are absent from now on. */
    void (*trap)(void *user, const pals_node *node, uint64_t round, uint32_t step, int32_t trap);
    /* The node has stopped: PALS_STOP_EARLY or PALS_STOP_MISSED with the link and the round of the message, or
       PALS_STOP_CLOCK with the round that was not started. */
    void (*stop)(void *user, const pals_node *node, pals_event cause, uint32_t link, uint64_t round);
    /* Whether the clock is synchronised: asked at each start. If it is not, the node stops. */
    bool (*trusted)(void *user);
} pals_hooks;

/* The memory of a node, in the lengths that its component needs. */
typedef struct {
    void *frame;
    pals_value *slots;  /* the rates of all its links together */
    bool *full;         /* one for each link */
    pals_value *ins;    /* rate * ins, step by step */
    pals_value *outs;   /* outs * rate, port by port */
    pals_value *values; /* the larger of outs and rate: the values of a step, or of a message */
} pals_memory;

/* Memory for what a round begins with: the frame, and the messages of the round before. */
typedef struct {
    void *frame;       /* the frame_size bytes of the component */
    pals_value *slots; /* as many as the node has */
    uint64_t round;    /* the round that is saved when it starts */
    bool reads;        /* whether it reads messages */
    bool saved;        /* whether it has started */
} pals_checkpoint;

struct pals_node {
    const pals_component *of;
    const pals_hooks *hooks;
    void *user;
    pals_memory memory;
    uint64_t rounds;   /* how many it makes; 0: no end */
    uint64_t count;    /* how many it has started */
    uint32_t steps;    /* how many of the round in hand are finished */
    bool reads;        /* whether the next round reads messages: false before the first one, and after a restart */
    pals_policy policy;
    bool degraded;     /* whether a round was started with held values since the first one */
    bool halted;       /* whether a trap was recorded */
    pals_phase phase;
    bool sent;         /* whether round count - 1 is sent; true before the first */
    int64_t alarm;     /* of round count */
    int64_t reading;   /* the last one */
    pals_checkpoint *checkpoint; /* NULL: saves nothing */
};

/* Opens a node before its first round. Its policy is PALS_STOPS; set `policy` for another one. */
void pals_open(pals_node *node, const pals_component *of, const pals_memory *memory, const pals_hooks *hooks,
               void *user, uint64_t rounds);

/* Sets a node, in any phase, before a round that it begins as its first one: with the initial frame, without the
   messages of the round before. Messages of rounds before it are ignored. All nodes have to restart at one round. */
void pals_restart(pals_node *node, uint64_t round, int64_t reading);

/* Lets a node save what a round begins with, when it starts the round; it saves nothing if it holds a value there. All
   nodes have to save one round, if they are to resume. */
void pals_save_at(pals_node *node, pals_checkpoint *checkpoint, uint64_t round);

/* Sets a node, in any phase, before a round that it begins as it began the saved one: with the saved frame, and with
   the saved messages as those of the round before. Returns false, and changes nothing, if no round is saved. All nodes
   have to resume at one round, with what they saved of one round. */
bool pals_resume(pals_node *node, uint64_t round, int64_t reading);

/* A message of a round has arrived on a link. It is rejected if the link does not go to this node, if it has another
   number of values, if a Boolean is neither 0 nor 1, and if the node has stopped. */
pals_arrived pals_arrive(pals_node *node, uint32_t link, uint64_t round, const pals_value values[], uint32_t count,
                         int64_t reading);

/* Begins the next round: takes the messages of the round before, reads the inputs, and begins step 0. */
pals_answer pals_start(pals_node *node, int64_t reading);

/* Begins the next step of the round in hand. */
pals_answer pals_step(pals_node *node, int64_t reading);

/* Runs the code of the step that is begun, and so finishes it. */
pals_answer pals_finish(pals_node *node);

/* Sends the round in hand: one message for each link from the node. */
pals_answer pals_send(pals_node *node, int64_t reading);

/* The node's next action, and the reading from which on it may happen; PALS_NOTHING and PALS_NEVER if it is done or has
   stopped. */
pals_action pals_next(const pals_node *node, int64_t *from);

/* Performs the actions that the node may do at this reading, and returns the reading of the next action, or
   PALS_NEVER. It begins no round after another action: then it returns a reading that has already occurred, and the
   caller must check for messages before the next call. */
int64_t pals_poll(pals_node *node, int64_t reading);

#endif
