/* What lagd counts: a count, the name that status and metrics have for it, and what that says. */
#ifndef LAGD_COUNTS_H
#define LAGD_COUNTS_H

/* Of a port, by the library: a field of struct link, in place of the count (IEEE 802.1AX-2014, 7.3.3 and 7.3.4). */
#define EACH_LIBRARY_COUNT(COUNT) \
    COUNT(counters.lacpdus_received, "lacpdus_received", "LACPDUs that were taken") \
    COUNT(counters.markers_received, "markers_received", "markers that were taken") \
    COUNT(counters.marker_responses_received, "marker_responses_received", "marker responses that were taken") \
    COUNT(counters.unknown_received, "unknown_received", "frames of the slow protocols of subtype 3 to 10") \
    COUNT(counters.illegal_received, "illegal_received", "badly formed PDUs, and frames of the slow protocols of an illegal subtype") \
    COUNT(counters.lacpdus_sent, "lacpdus_sent", "LACPDUs that the kernel took") \
    COUNT(counters.markers_sent, "markers_sent", "markers that the kernel took") \
    COUNT(counters.marker_responses_sent, "marker_responses_sent", "marker responses that the kernel took") \
    COUNT(churn.actor.churns, "actor_churns", "times that the link was up for 60 s, and the own side not synchronized") \
    COUNT(churn.partner.churns, "partner_churns", "times that the link was up for 60 s, and the partner not synchronized") \
    COUNT(churn.actor.synchronizations, "actor_synchronized", "times that the own side came to be synchronized") \
    COUNT(churn.partner.synchronizations, "partner_synchronized", "times that the partner came to be synchronized")

/* Of a port, beside these. */
#define EACH_PORT_COUNT(COUNT) \
    COUNT(ELSEWHERE_RECEIVED, "elsewhere_received", "frames to another address than 01-80-C2-00-00-02") \
    COUNT(TAGGED_RECEIVED, "tagged_received", "frames with a VLAN tag") \
    COUNT(FOREIGN_RECEIVED, "foreign_received", "LACPDUs of a system that is not the partner") \
    COUNT(FOREIGN_RESPONSES, "foreign_responses", "marker responses that are not the partner's, or not to a marker of the port") \
    COUNT(DISABLED_RECEIVED, "disabled_received", "frames that came while the link was down") \
    COUNT(RESPONSES_UNSENT, "marker_responses_unsent", "markers without a response, above marker-responses in a second") \
    COUNT(FAILED_SENT, "failed_sent", "frames that the kernel did not take") \
    COUNT(LOSSES, "link_losses", "losses of the link") \
    COUNT(PARTNER_CHANGES, "partner_changes", "LACPDUs of another system than the one before") \
    COUNT(EXPIRED, "expired", "times that no LACPDU came in time") \
    COUNT(DEFAULTED, "defaulted", "times that the port came to run on defaults") \
    COUNT(DISTRIBUTED, "distributed", "times that the port came to distribute")

/* Of data. Each frame that came from the host is one of UNFIT to OVERFLOWED, waits, or was given to a member; each one that a member took
 * is one of HANDED_UP to OTHER_AGGREGATOR, or counted of the member. */
#define EACH_CARRY_COUNT(COUNT) \
    COUNT(FROM_HOST, "from_host", "frames that came from the TAP device") \
    COUNT(UNFIT, "unfit", "of these, too short, too long, of the slow protocols or, with fast, for a member that is gone") \
    COUNT(NONE_CARRIES, "none_carries", "of these, lost since no port carried") \
    COUNT(QUEUE_FULL, "queue_full", "of these, lost since too many waited") \
    COUNT(HELD_TOO_LONG, "held_too_long", "of these, lost since they waited too long") \
    COUNT(OVERFLOWED, "overflowed", "of these, lost by the kernel since too many waited for the daemon") \
    COUNT(HANDED_UP, "handed_up", "frames that were handed up to the TAP device") \
    COUNT(HOST_UNTAKEN, "host_untaken", "frames that the TAP device did not take") \
    COUNT(OTHER_AGGREGATOR, "other_aggregator", "frames that came in an aggregator that carries no data") \
    COUNT(HELD_FRAMES, "held", "frames that waited") \
    COUNT(LONGEST_QUEUE, "longest_queue", "the most frames of a conversation that waited at once") \
    COUNT(MARKERS_SENT, "markers_sent", "markers that were sent") \
    COUNT(MARKERS_AGAIN, "markers_again", "markers that were sent again") \
    COUNT(MOVES, "moves", "moves of conversations") \
    COUNT(RESTED, "rested", "conversations that were freed from their link after a rest") \
    COUNT(FORCED, "forced", "conversations that were held, and freed without a response") \
    COUNT(SWITCHES, "switches", "switches to another aggregator") \
    COUNT(WOKEN, "woken", "ports on defaults that were started again") \
    COUNT(SEGMENTED, "segmented", "frames of several segments that came to the daemon") \
    COUNT(WITHDRAWN, "withdrawn", "conversations that were taken back from the kernel")

/* Of the data of a member. */
#define EACH_MEMBER_COUNT(COUNT) \
    COUNT(DATA_SENT, "data_sent", "frames of data that the kernel took") \
    COUNT(DATA_UNSENT, "data_unsent", "frames of data that the kernel did not take") \
    COUNT(DATA_RECEIVED, "data_received", "frames of data that came") \
    COUNT(UNCOLLECTED, "uncollected", "of these, lost since the port did not collect") \
    COUNT(WRONG_LENGTH, "wrong_length", "of these, too short or too long") \
    COUNT(SOCKET_FULL, "socket_full", "frames that the kernel lost, beside those that came") \
    COUNT(RETAGGED, "retagged", "frames whose VLAN tag was put back") \
    COUNT(WITHOUT_SUMS, "without_sums", "frames that came without their checksums") \
    COUNT(PASSED_ON, "passed_on", "frames of data that the kernel passed on by itself") \
    COUNT(PASSED_UP, "passed_up", "frames of data that the kernel handed up by itself")

#define COUNT_ITSELF(count, name, help) count,
#define COUNT_TEXT(count, name, help) {name, help},
#define COUNT_ONE(count, name, help) +1

/* How many the library counts of a port. */
enum { LIBRARY_COUNTS = EACH_LIBRARY_COUNT(COUNT_ONE) };
enum count { EACH_PORT_COUNT(COUNT_ITSELF) COUNTS };
enum carry_count { EACH_CARRY_COUNT(COUNT_ITSELF) CARRY_COUNTS };
enum member_count { EACH_MEMBER_COUNT(COUNT_ITSELF) MEMBER_COUNTS };

struct count_text {
    const char *name, *help;
};

#endif
