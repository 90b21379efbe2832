/* The basic link (LLC) of a TETRA base station: the engine that is proved in Rattle, for C on x86-64.
 *
 * Link with crates/llc_exports/out/libllc_exports.a, which `python3 tools/build llc_exports` makes. A call's bytes, the records and the
 * numbers are document 01's, as the requests in docs/changes change them. The structs are those of crates/llc_state, crates/llc_steps and crates/tdma_time; look at them,
 * and let only wipturay_call write them: the state that a call leaves is the one to hand to the next. */
#ifndef WIPTURAY_H
#define WIPTURAY_H

#include <assert.h>
#include <stdbool.h>
#include <stddef.h>
#include <stdint.h>

#ifdef __cplusplus
extern "C" {
#endif

/** How many bytes the store has. */
#define WIPTURAY_STORE 32256

/** How many bytes the output has at least. */
#define WIPTURAY_OUTPUT 47040

/** A slot, by its place in the frame, the multiframe and the hyperframe. */
struct wipturay_tdma_time {
    uint8_t t;  /**< Timeslot, from 1 to 4. */
    uint8_t f;  /**< Frame number, from 1 to 18. */
    uint8_t m;  /**< Multiframe number, from 1 to 60. */
    uint16_t h; /**< Hyperframe number, from 0 to 65,535. */
};

/** What is handed down of a message, but for its frame. */
struct wipturay_tma_unitdata_req {
    uint32_t ssi;
    uint8_t ssi_type;     /**< 1 individual, 2 group. */
    uint16_t carrier_num; /**< Carrier on which the message is sent. */
    uint32_t link_id;
    uint32_t endpoint_id;
    uint32_t req_handle;
    bool stealing_permission;
    bool has_mask;
    uint8_t mask;      /**< Timeslot mask, if there is one. */
    uint8_t receipt;   /**< The number of its receipt. */
    size_t block_len;
    uint8_t block[64]; /**< Pass-through block, of which block_len bytes count. */
};

/** Where a frame's bits lie in the store. */
struct wipturay_frame_place {
    size_t place; /**< Which of the 96 places of the store its frame has. */
    size_t len;   /**< How many bits its frame has, its check bits among them. */
};

/** How far a message has come. */
struct wipturay_progress {
    bool ns;                /**< Expected acknowledgement sequence number. */
    bool submitted_to_umac; /**< Was it passed down? */
    bool has_umac_done;     /**< Was it reported, and noted in a tick end? */
    struct wipturay_tdma_time t_umac_done; /**< When that was noted. */
    uint8_t retransmit_count;
};

/** A message that the link holds. */
struct wipturay_entry {
    struct wipturay_tma_unitdata_req sent; /**< What of it is handed down. */
    struct wipturay_frame_place frame;     /**< Where its frame lies. */
    struct wipturay_progress progress;     /**< How far it has come. */
};

/** An acknowledgement that is due. */
struct wipturay_scheduled_out_ack {
    uint32_t ssi;
    uint8_t ssi_type;     /**< 1 individual, 2 group. */
    uint16_t carrier_num; /**< Carrier on which the original message was received. */
    bool nr;              /**< Received sequence number. */
    uint8_t ts;           /**< Timeslot on which the original message was received. */
};

/** The place of a receipt: the receipt, if it is taken. */
struct wipturay_receipt_place {
    bool taken;
    bool expects_ack;
    uint8_t state; /**< 0 Pending, 1 Discarded, 2 Transmitted, 3 Lost (handed down four times, the last time transmitted), 4 Acknowledged. */
};

/** The row of an SSI: its send sequence variable, and the last N(S) that was accepted from it. */
struct wipturay_link_send_seq {
    uint32_t ssi;
    bool vs;          /**< The N(S) of the next acknowledged message to it. */
    bool has_last_ns; /**< Was a frame with an N(S) accepted from it? */
    bool last_ns;     /**< The N(S) of the last one, if there was one: a frame with the same is a repeat, and does not go up. */
};

/** The link. Of each array so many elements count as its number says; of the receipts those that are taken. */
struct wipturay_state {
    bool started;
    uint16_t main_carrier;
    uint16_t t251;
    struct wipturay_tdma_time dltime;
    size_t n_messages;
    size_t n_udata;
    size_t n_acks;
    size_t n_rows;
    struct wipturay_entry outbound_messages[64];
    struct wipturay_entry outbound_udata_messages[32];
    struct wipturay_scheduled_out_ack scheduled_out_acks[64];
    struct wipturay_receipt_place receipts[128];
    struct wipturay_link_send_seq link_send_seq[256];
};

/** What a call gives. */
struct wipturay_answer {
    struct wipturay_state state; /**< The state after the call. */
    size_t len; /**< How many bytes at the front of the output are records of this call. */
    uint8_t number; /**< 0 if the call was accepted, else the number of the first question that it fails. */
};

static_assert(sizeof(struct wipturay_tdma_time) == 6, "wipturay_tdma_time");
static_assert(sizeof(struct wipturay_tma_unitdata_req) == 96, "wipturay_tma_unitdata_req");
static_assert(sizeof(struct wipturay_frame_place) == 16, "wipturay_frame_place");
static_assert(sizeof(struct wipturay_progress) == 12, "wipturay_progress");
static_assert(sizeof(struct wipturay_entry) == 128, "wipturay_entry");
static_assert(sizeof(struct wipturay_scheduled_out_ack) == 12, "wipturay_scheduled_out_ack");
static_assert(sizeof(struct wipturay_receipt_place) == 3, "wipturay_receipt_place");
static_assert(sizeof(struct wipturay_link_send_seq) == 8, "wipturay_link_send_seq");
static_assert(sizeof(struct wipturay_state) == 15536, "wipturay_state");
static_assert(sizeof(struct wipturay_answer) == 15552, "wipturay_answer");

/** The state of a link that is empty and not started. */
struct wipturay_state wipturay_new(void);

/** One call of any bytes, on any state whose bools are 0 or 1, with any store and output.
 *
 * Store and output may not overlap each other or the bytes. A refused call (number not 0) leaves state, store and output as
 * they were. The library keeps no pointer. */
struct wipturay_answer wipturay_call(struct wipturay_state state, uint8_t *store, size_t store_len, uint8_t *out,
                                     size_t out_len, const uint8_t *bytes, size_t bytes_len);

#ifdef __cplusplus
}
#endif

#endif
