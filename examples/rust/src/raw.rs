//! The numbers, structs and functions of `lag.h`. The library exports each `niw_X` as `lagffi_X`, which does not check for null pointers.
//!
//! tools/maintain/interface writes this file; it is not changed by hand.
#![allow(dead_code)]
#![cfg_attr(rustfmt, rustfmt_skip)]

use std::ffi::c_void;

pub const NIW_VERSION: u32 = 13;
pub const NIW_FRAME: u32 = 124;
pub const NIW_PAYLOAD_LENGTH: u32 = 110;
pub const NIW_SHORTEST_FRAME: u32 = 14;
pub const NIW_LONGEST_FRAME: u32 = 1518;
pub const NIW_MOST_PORTS: u32 = 64;
pub const NIW_MOST_TICKS: u32 = 65535;
pub const NIW_ONE_CONVERSATION: u32 = 1;
pub const NIW_FEW_CONVERSATIONS: u32 = 256;
pub const NIW_MANY_CONVERSATIONS: u32 = 4096;
pub const NIW_MOST_CONVERSATIONS: u32 = 65536;
pub const NIW_TICK_MILLISECONDS: u32 = 100;
pub const NIW_STATE_TEXT_ROOM: u32 = 87;
pub const NIW_OK: u32 = 0;
pub const NIW_NO_PORT: u32 = 1;
pub const NIW_NO_AGGREGATOR: u32 = 2;
pub const NIW_FRAME_LENGTH: u32 = 3;
pub const NIW_SLOW_FRAME: u32 = 4;
pub const NIW_HELD: u32 = 5;
pub const NIW_NONE_DISTRIBUTING: u32 = 6;
pub const NIW_NOT_DISTRIBUTING: u32 = 7;
pub const NIW_SAME_PORT: u32 = 8;
pub const NIW_NOT_ASSIGNED: u32 = 9;
pub const NIW_MARKERS_SPENT: u32 = 10;
pub const NIW_BAD_CONFIG: u32 = 11;
pub const NIW_NO_MEMORY: u32 = 12;
pub const NIW_NO_SYSTEM: u32 = 13;
pub const NIW_HAS_SYSTEM: u32 = 14;
pub const NIW_BUFFER: u32 = 15;
pub const NIW_NULL: u32 = 16;
pub const NIW_BAD_PAYLOAD: u32 = 17;
pub const NIW_NO_PDU: u32 = 18;
pub const NIW_NO_QUEUE: u32 = 19;
pub const NIW_HAS_QUEUE: u32 = 20;
pub const NIW_CONVERSATION_FULL: u32 = 21;
pub const NIW_ALL_FULL: u32 = 22;
pub const NIW_STALE: u32 = 23;
pub const NIW_OVER_LIMIT: u32 = 24;
pub const NIW_MANY_TICKS: u32 = 25;
pub const NIW_REASON_PORTS: u32 = 1;
pub const NIW_REASON_AGGREGATORS: u32 = 2;
pub const NIW_REASON_PORT_NUMBER: u32 = 3;
pub const NIW_REASON_MAX_LINKS: u32 = 4;
pub const NIW_REASON_CONVERSATIONS: u32 = 5;
pub const NIW_REASON_ALGORITHM: u32 = 6;
pub const NIW_FAULT_SHORT: u32 = 1;
pub const NIW_FAULT_OTHER_SUBTYPE: u32 = 2;
pub const NIW_FAULT_BAD_LENGTH: u32 = 3;
pub const NIW_FAULT_MARKER_TLV: u32 = 4;
pub const NIW_STATE_ACTIVITY: u32 = 1;
pub const NIW_STATE_TIMEOUT: u32 = 2;
pub const NIW_STATE_AGGREGATION: u32 = 4;
pub const NIW_STATE_SYNCHRONIZATION: u32 = 8;
pub const NIW_STATE_COLLECTING: u32 = 16;
pub const NIW_STATE_DISTRIBUTING: u32 = 32;
pub const NIW_STATE_DEFAULTED: u32 = 64;
pub const NIW_STATE_EXPIRED: u32 = 128;
pub const NIW_BY_NUMBER: u32 = 0;
pub const NIW_BY_SUM: u32 = 1;
pub const NIW_BY_FIRST: u32 = 2;
pub const NIW_RECEIVED_DISABLED: u32 = 0;
pub const NIW_RECEIVED_DROPPED: u32 = 1;
pub const NIW_RECEIVED_IGNORED: u32 = 2;
pub const NIW_RECEIVED_TOOK_LACPDU: u32 = 3;
pub const NIW_RECEIVED_RESPOND: u32 = 4;
pub const NIW_RECEIVED_RELEASED: u32 = 5;
pub const NIW_RECEIVED_HANDED_UP: u32 = 6;
pub const NIW_SENT_NOTHING: u32 = 0;
pub const NIW_SENT_LACPDU: u32 = 1;
pub const NIW_SENT_MARKER: u32 = 2;
pub const NIW_RECEIVE_INITIALIZE: u32 = 0;
pub const NIW_RECEIVE_PORT_DISABLED: u32 = 1;
pub const NIW_RECEIVE_EXPIRED: u32 = 2;
pub const NIW_RECEIVE_DEFAULTED: u32 = 3;
pub const NIW_RECEIVE_CURRENT: u32 = 4;
pub const NIW_MUX_DETACHED: u32 = 0;
pub const NIW_MUX_WAITING: u32 = 1;
pub const NIW_MUX_ATTACHED: u32 = 2;
pub const NIW_MUX_COLLECTING_DISTRIBUTING: u32 = 3;
pub const NIW_PORT_STATUS_DISTRIBUTING: u32 = 0;
pub const NIW_PORT_STATUS_LINK_DOWN: u32 = 1;
pub const NIW_PORT_STATUS_NO_LACPDU: u32 = 2;
pub const NIW_PORT_STATUS_ON_DEFAULTS: u32 = 3;
pub const NIW_PORT_STATUS_OWN_SYSTEM: u32 = 4;
pub const NIW_PORT_STATUS_NO_AGGREGATOR: u32 = 5;
pub const NIW_PORT_STATUS_STANDBY: u32 = 6;
pub const NIW_PORT_STATUS_WAITING: u32 = 7;
pub const NIW_PORT_STATUS_WAITING_FOR_MEMBERS: u32 = 8;
pub const NIW_PORT_STATUS_PARTNER_NOT_SYNCHRONIZED: u32 = 9;
pub const NIW_PORT_STATUS_HELD: u32 = 10;
pub const NIW_ANSWERS_NEVER_ASKED: u32 = 0;
pub const NIW_ANSWERS_ASKED: u32 = 1;
pub const NIW_ANSWERS_ANSWERED: u32 = 2;
pub const NIW_CONVERSATION_FREE: u32 = 0;
pub const NIW_CONVERSATION_ON: u32 = 1;
pub const NIW_CONVERSATION_WANTED: u32 = 2;
pub const NIW_CONVERSATION_FLUSHING: u32 = 3;
pub const NIW_SUBTYPE_LACPDU: u32 = 1;
pub const NIW_SUBTYPE_MARKER: u32 = 2;
pub const NIW_MARKER_INFORMATION: u32 = 1;
pub const NIW_MARKER_RESPONSE: u32 = 2;
pub const NIW_CHURN_MONITOR: u32 = 0;
pub const NIW_CHURN_NO_CHURN: u32 = 1;
pub const NIW_CHURN_CHURN: u32 = 2;

/// `struct niw_system`.
#[repr(C)]
pub struct System {
    pub live: bool,
    pub at: *mut c_void,
}

/// `struct niw_queue`.
#[repr(C)]
pub struct Queue {
    pub live: bool,
    pub at: *mut c_void,
}

/// `struct niw_config`.
#[repr(C)]
#[derive(Clone, Copy, Debug, Default)]
pub struct Config {
    pub priority: u16,
    pub mac: [u8; 6],
    pub max_delay: u16,
    pub first_marker: u32,
    pub conversations: u16,
    pub max_links: u16,
    pub algorithm: u16,
}

/// `struct niw_port`.
#[repr(C)]
#[derive(Clone, Copy, Debug, Default)]
pub struct Port {
    pub number: u16,
    pub priority: u16,
    pub mac: [u8; 6],
    pub key: u16,
    pub aggregatable: bool,
    pub active: bool,
    pub short_timeout: bool,
}

/// `struct niw_saved`.
#[repr(C)]
#[derive(Clone, Copy, Debug)]
pub struct Saved {
    pub port: u16,
    pub aggregator: u16,
    pub age: u32,
    pub frame: [u8; 124],
}

/// `struct niw_change`.
#[repr(C)]
#[derive(Clone, Copy, Debug, Default)]
pub struct Change {
    pub key: u16,
    pub priority: u16,
    pub aggregatable: bool,
}

/// `struct niw_made`.
#[repr(C)]
#[derive(Clone, Copy, Debug, Default)]
pub struct Made {
    pub status: u32,
    pub reason: u32,
    pub place: usize,
}

/// `struct niw_truth`.
#[repr(C)]
#[derive(Clone, Copy, Debug, Default)]
pub struct Truth {
    pub status: u32,
    pub is: bool,
}

/// `struct niw_number`.
#[repr(C)]
#[derive(Clone, Copy, Debug, Default)]
pub struct Number {
    pub status: u32,
    pub number: u64,
}

/// `struct niw_received`.
#[repr(C)]
#[derive(Clone, Copy, Debug, Default)]
pub struct Received {
    pub status: u32,
    pub what: u32,
    pub number: u32,
}

/// `struct niw_sent`.
#[repr(C)]
#[derive(Clone, Copy, Debug, Default)]
pub struct Sent {
    pub status: u32,
    pub is: bool,
    pub what: u8,
    pub octets: u32,
}

/// `struct niw_actor`.
#[repr(C)]
#[derive(Clone, Copy, Debug, Default)]
pub struct Actor {
    pub status: u32,
    pub system_priority: u16,
    pub system_mac: [u8; 6],
    pub key: u16,
    pub port_priority: u16,
    pub port: u16,
    pub aggregatable: bool,
}

/// `struct niw_info`.
#[repr(C)]
#[derive(Clone, Copy, Debug, Default)]
pub struct Info {
    pub status: u32,
    pub system_priority: u16,
    pub system_mac: [u8; 6],
    pub key: u16,
    pub port_priority: u16,
    pub port: u16,
    pub state: u8,
}

/// `struct niw_end`.
#[repr(C)]
#[derive(Clone, Copy, Debug, Default)]
pub struct End {
    pub system_priority: u16,
    pub system_mac: [u8; 6],
    pub key: u16,
    pub individual: bool,
    pub port_priority: u16,
    pub port: u16,
}

/// `struct niw_group_id`.
#[repr(C)]
#[derive(Clone, Copy, Debug, Default)]
pub struct GroupId {
    pub status: u32,
    pub lower: End,
    pub upper: End,
}

/// `struct niw_assignment`.
#[repr(C)]
#[derive(Clone, Copy, Debug, Default)]
pub struct Assignment {
    pub status: u32,
    pub what: u32,
    pub port: u16,
    pub prefers: bool,
    pub preferred: u16,
    pub id: u32,
    pub age: u8,
}

/// `struct niw_marker`.
#[repr(C)]
#[derive(Clone, Copy, Debug, Default)]
pub struct Marker {
    pub status: u32,
    pub left: bool,
    pub id: u32,
}

/// `struct niw_wait`.
#[repr(C)]
#[derive(Clone, Copy, Debug, Default)]
pub struct Wait {
    pub status: u32,
    pub ever: bool,
    pub ticks: u16,
}

/// `struct niw_view`.
#[repr(C)]
#[derive(Clone, Copy, Debug, Default)]
pub struct View {
    pub port: u16,
    pub aggregator: u16,
    pub up: bool,
    pub standby: bool,
    pub defaulted: bool,
    pub state: u8,
    pub receive_state: u8,
    pub mux_state: u8,
    pub port_status: u8,
    pub partner_state: u8,
    pub partner_mac: [u8; 6],
    pub partner_priority: u16,
    pub partner_key: u16,
    pub partner_port_priority: u16,
    pub partner_port: u16,
}

/// `struct niw_participant`.
#[repr(C)]
#[derive(Clone, Copy, Debug, Default)]
pub struct Participant {
    pub system_priority: u16,
    pub system_mac: [u8; 6],
    pub key: u16,
    pub port_priority: u16,
    pub port: u16,
    pub state: u8,
}

/// `struct niw_pdu`.
#[repr(C)]
#[derive(Clone, Copy, Debug, Default)]
pub struct Pdu {
    pub subtype: u8,
    pub tlv_type: u8,
    pub max_delay: u16,
    pub actor: Participant,
    pub partner: Participant,
    pub requester_port: u16,
    pub requester_system: [u8; 6],
    pub transaction_id: u32,
}

/// `struct niw_decoded`.
#[repr(C)]
#[derive(Clone, Copy, Debug, Default)]
pub struct Decoded {
    pub status: u32,
    pub fault: u32,
    pub at: usize,
    pub found: u8,
}

/// `struct niw_carried`.
#[repr(C)]
#[derive(Clone, Copy, Debug, Default)]
pub struct Carried {
    pub port: u16,
    pub load: u32,
}

/// `struct niw_move`.
#[repr(C)]
#[derive(Clone, Copy, Debug, Default)]
pub struct Move {
    pub status: u32,
    pub is: bool,
    pub conversation: u16,
    pub port: u16,
}

/// `struct niw_queued`.
#[repr(C)]
#[derive(Clone, Copy, Debug, Default)]
pub struct Queued {
    pub status: u32,
    pub is: bool,
    pub conversation: u16,
    pub port: u16,
    pub frame: u64,
}

/// `struct niw_counts`.
#[repr(C)]
#[derive(Clone, Copy, Debug, Default)]
pub struct Counts {
    pub status: u32,
    pub waiting: u64,
    pub dropped: u64,
    pub refused: u64,
}

/// `struct niw_churn_machine`.
#[repr(C)]
#[derive(Clone, Copy, Debug, Default)]
pub struct ChurnMachine {
    pub state: u32,
    pub waited: u16,
    pub churns: u64,
    pub synchronizations: u64,
}

/// `struct niw_churn`.
#[repr(C)]
#[derive(Clone, Copy, Debug, Default)]
pub struct Churn {
    pub actor: ChurnMachine,
    pub partner: ChurnMachine,
}

/// `struct niw_counters`.
#[repr(C)]
#[derive(Clone, Copy, Debug, Default)]
pub struct Counters {
    pub lacpdus_received: u64,
    pub markers_received: u64,
    pub marker_responses_received: u64,
    pub unknown_received: u64,
    pub illegal_received: u64,
    pub lacpdus_sent: u64,
    pub markers_sent: u64,
    pub marker_responses_sent: u64,
}

extern "C" {
    pub fn lagffi_new(handle: *mut System, config: *const Config, keys: *const u16, key_count: usize, ports: *const Port, port_count: usize) -> Made;
    pub fn lagffi_free(handle: *mut System) -> u32;
    pub fn lagffi_receive(handle: *mut System, port: u16, frame: *const u8, length: usize, response: *mut u8, room: usize) -> Received;
    pub fn lagffi_tick(handle: *mut System) -> u32;
    pub fn lagffi_ticks(handle: *mut System, count: u32) -> u32;
    pub fn lagffi_set_link(handle: *mut System, port: u16, up: bool) -> u32;
    pub fn lagffi_configure(handle: *mut System, port: u16, change: *const Change) -> Truth;
    pub fn lagffi_restart(handle: *mut System) -> u32;
    pub fn lagffi_transmit(handle: *mut System, port: u16, frame: *mut u8, room: usize) -> Sent;
    pub fn lagffi_offer(handle: *mut System, agg: u16, frame: *const u8, length: usize) -> Number;
    pub fn lagffi_move_conversation(handle: *mut System, agg: u16, conv: u16, port: u16) -> u32;
    pub fn lagffi_force(handle: *mut System, agg: u16, conv: u16) -> u32;
    pub fn lagffi_force_port(handle: *mut System, port: u16) -> Number;
    pub fn lagffi_offer_conversation(handle: *mut System, agg: u16, conv: u16) -> Number;
    pub fn lagffi_leave_conversation(handle: *mut System, agg: u16, conv: u16) -> u32;
    pub fn lagffi_rest(handle: *mut System, agg: u16, conv: u16) -> u32;
    pub fn lagffi_adopt(handle: *mut System, agg: u16, conv: u16, port: u16) -> u32;
    pub fn lagffi_probe(handle: *mut System, port: u16, frame: *mut u8, room: usize) -> Sent;
    pub fn lagffi_offer_in_active_aggregator(handle: *mut System, agg: u16, frame: *const u8, length: usize) -> Number;
    pub fn lagffi_offer_conversation_in_active_aggregator(handle: *mut System, agg: u16, conv: u16) -> Number;
    pub fn lagffi_ports(handle: *mut System, numbers: *mut u16, room: usize) -> Number;
    pub fn lagffi_views(handle: *mut System, views: *mut View, room: usize) -> Number;
    pub fn lagffi_due(handle: *mut System) -> Number;
    pub fn lagffi_aggregators(handle: *mut System) -> Number;
    pub fn lagffi_load(handle: *mut System, port: u16) -> Number;
    pub fn lagffi_held(handle: *mut System, port: u16) -> Number;
    pub fn lagffi_answers(handle: *mut System, port: u16) -> Number;
    pub fn lagffi_is_up(handle: *mut System, port: u16) -> Truth;
    pub fn lagffi_state(handle: *mut System, port: u16) -> Number;
    pub fn lagffi_receive_state(handle: *mut System, port: u16) -> Number;
    pub fn lagffi_is_due(handle: *mut System, port: u16) -> Truth;
    pub fn lagffi_party(handle: *mut System, port: u16) -> Actor;
    pub fn lagffi_partner(handle: *mut System, port: u16) -> Info;
    pub fn lagffi_group(handle: *mut System, port: u16) -> GroupId;
    pub fn lagffi_defaulted(handle: *mut System, port: u16) -> Truth;
    pub fn lagffi_distributes(handle: *mut System, port: u16) -> Truth;
    pub fn lagffi_choice(handle: *mut System, port: u16) -> Number;
    pub fn lagffi_is_standby(handle: *mut System, port: u16) -> Truth;
    pub fn lagffi_mux_state(handle: *mut System, port: u16) -> Number;
    pub fn lagffi_port_status(handle: *mut System, port: u16) -> Number;
    pub fn lagffi_current_while(handle: *mut System, port: u16) -> Number;
    pub fn lagffi_wait_while(handle: *mut System, port: u16) -> Number;
    pub fn lagffi_ntt(handle: *mut System, port: u16) -> Truth;
    pub fn lagffi_distributing(handle: *mut System, agg: u16, numbers: *mut u16, room: usize) -> Number;
    pub fn lagffi_resume(handle: *mut System, config: *const Config, keys: *const u16, key_count: usize, ports: *const Port, port_count: usize, saved: *const Saved, saved_count: usize) -> Made;
    pub fn lagffi_hold(handle: *mut System, port: u16, hold: bool) -> u32;
    pub fn lagffi_set_mode(handle: *mut System, port: u16, active: bool, short_timeout: bool) -> u32;
    pub fn lagffi_set_max_delay(handle: *mut System, max_delay: u16) -> u32;
    pub fn lagffi_set_max_links(handle: *mut System, max_links: u16) -> u32;
    pub fn lagffi_set_in_use(handle: *mut System, agg: u16, in_use: bool) -> u32;
    pub fn lagffi_active_aggregator(handle: *mut System, now: u16) -> Number;
    pub fn lagffi_conversation(handle: *mut System, frame: *const u8, length: usize) -> Number;
    pub fn lagffi_conversation_state(handle: *mut System, agg: u16, conv: u16) -> Assignment;
    pub fn lagffi_conversation_ports(handle: *mut System, agg: u16, ports: *mut u16, port_count: usize, changed: *mut bool, changed_count: usize) -> Number;
    pub fn lagffi_released(handle: *mut System, agg: u16, busy: *mut bool, busy_count: usize, freed: *mut bool, freed_count: usize) -> Number;
    pub fn lagffi_next_marker(handle: *mut System) -> Marker;
    pub fn lagffi_ticks_until_due(handle: *mut System) -> Wait;
    pub fn lagffi_decode(payload: *const u8, length: usize, pdu: *mut Pdu) -> Decoded;
    pub fn lagffi_encode(pdu: *const Pdu, payload: *mut u8, room: usize) -> u32;
    pub fn lagffi_next_move(ports: *const u16, port_count: usize, carried: *const Carried, carried_count: usize) -> Move;
    pub fn lagffi_churn_tick(churn: *mut Churn, up: bool, actor_state: u8, partner_state: u8) -> u32;
    pub fn lagffi_count_received(counters: *mut Counters, frame: *const u8, length: usize, what: u32) -> u32;
    pub fn lagffi_count_sent(counters: *mut Counters, frame: *const u8, length: usize) -> u32;
    pub fn lagffi_queue_new(handle: *mut Queue, conversations: u16, in_all: usize, each: usize) -> u32;
    pub fn lagffi_queue_free(handle: *mut Queue) -> u32;
    pub fn lagffi_queue_put(handle: *mut Queue, conv: u16, frame: u64) -> u32;
    pub fn lagffi_queue_next(handle: *mut Queue, conv: u16) -> Queued;
    pub fn lagffi_queue_drop(handle: *mut Queue, conv: u16) -> Queued;
    pub fn lagffi_queue_oldest(handle: *mut Queue, conv: u16) -> Queued;
    pub fn lagffi_queue_next_released(handle: *mut Queue, ports: *const u16, port_count: usize) -> Queued;
    pub fn lagffi_queue_waiting(handle: *mut Queue, conv: u16) -> Number;
    pub fn lagffi_queue_counts(handle: *mut Queue) -> Counts;
}
