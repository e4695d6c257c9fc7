// What the test of the running kernel puts at the two ends of a veth pair. The last 32 bytes of a
// frame are its note; a frame without one is dropped where it is sent.
#include <linux/bpf.h>
#include <linux/pkt_cls.h>

#define SECTION(name) __attribute__((section(name), used))
#define MAGIC 0x73746565u
#define NO_QUEUE 0xffffffffu
#define RELEASE 0xffffffffu
#define PROCESSORS 64
#define LONGEST_HOLD 8000000000ULL

static long (*load_bytes)(const void *, __u32, void *, __u32) = (void *)BPF_FUNC_skb_load_bytes;
static long (*store_bytes)(void *, __u32, const void *, __u32, __u64) =
    (void *)BPF_FUNC_skb_store_bytes;
static long (*set_hash)(void *, __u32) = (void *)BPF_FUNC_set_hash;
static long (*redirect)(__u32, __u64) = (void *)BPF_FUNC_redirect;
static __u32 (*processor)(void) = (void *)BPF_FUNC_get_smp_processor_id;
static __u64 (*nanoseconds)(void) = (void *)BPF_FUNC_ktime_get_ns;
static long (*loop)(__u32, void *, void *, __u64) = (void *)BPF_FUNC_loop;

struct note {
    __u32 magic, number;
    // What the sender's program does: the hash that it gives, and the transmit queue, if any.
    __u32 hash, queue;
    // If not 0, the receiver's program keeps its processor until this ticket of it is released.
    __u32 hold;
    // What the receiver's program writes: the processor, the recorded queue (0 is none), the hash.
    __u32 cpu, recorded, seen;
};

// The latest ticket of each processor that was released.
static volatile __u32 released[PROCESSORS];

static int read_note(struct __sk_buff *skb, struct note *note) {
    if (skb->len < sizeof *note) return 0;
    if (load_bytes(skb, skb->len - sizeof *note, note, sizeof *note)) return 0;
    return note->magic == MAGIC;
}

// Gives a frame its hash. A queue is given as a forwarded frame has it: as the recorded receive
// queue, when the frame is sent a second time by the same device.
SECTION("give") int give_hash(struct __sk_buff *skb) {
    struct note note;
    if (skb->mark == MAGIC) return TC_ACT_OK;
    if (!read_note(skb, &note)) return TC_ACT_SHOT;
    set_hash(skb, note.hash);
    if (note.queue == NO_QUEUE) return TC_ACT_OK;
    skb->queue_mapping = note.queue + 1;
    skb->mark = MAGIC;
    return redirect(skb->ifindex, 0);
}

struct wait {
    __u64 until;
    __u32 cpu, ticket;
};

static long is_over(__u32 round, void *context) {
    struct wait *wait = context;
    return released[wait->cpu % PROCESSORS] >= wait->ticket || nanoseconds() >= wait->until;
}

static void keep(__u32 cpu, __u32 ticket) {
    struct wait wait = {nanoseconds() + LONGEST_HOLD, cpu, ticket};
    for (int part = 0; part < 32; part++) loop(1 << 23, is_over, &wait, 0);
}

// Writes the processor into the note, and keeps it or releases another one as the note says.
SECTION("mark") int mark_processor(struct __sk_buff *skb) {
    struct note note;
    if (!read_note(skb, &note)) return TC_ACT_OK;
    if (note.number == RELEASE) {
        released[note.cpu % PROCESSORS] = note.hold;
        return TC_ACT_SHOT;
    }
    note.cpu = processor();
    note.recorded = skb->queue_mapping;
    note.seen = skb->hash;
    store_bytes(skb, skb->len - sizeof note, &note, sizeof note, 0);
    if (note.hold) keep(note.cpu, note.hold);
    return TC_ACT_OK;
}

char _license[] SECTION("license") = "GPL";
