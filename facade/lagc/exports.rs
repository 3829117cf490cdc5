//! The functions of `lag.h`, as C calls them: what a caller owes stands there.
//!
//! tools/maintain/interface writes this file; it is not changed by hand.
#![allow(clippy::missing_safety_doc, reason = "lag.h says what a caller owes")]

use crate::balancing::LagMove;
use crate::codec_values::LagDecoded;
use crate::codec_values::LagPdu;
use crate::handle::Lag;
use crate::handle::LagQueue;
use crate::made::LagConfig;
use crate::made::LagMade;
use crate::made::LagPort;
use crate::observing::LagChurn;
use crate::queued::LagQueueCounts;
use crate::queued::LagQueued;
use crate::reader_values::LagAssignment;
use crate::reader_values::LagGroup;
use crate::reader_values::LagInfo;
use crate::reader_values::LagMarker;
use crate::reader_values::LagParty;
use crate::reader_values::LagWait;
use crate::values::LagChange;
use crate::values::LagNumber;
use crate::values::LagReceived;
use crate::values::LagSent;
use crate::values::LagTruth;
use crate::views::LagView;
use crate::{balancing, calls, carrying, codec, conversations, made, masks, observing, probing, queues, readers, resuming, settings, views};
use dataplane::Carried;
use dataplane::Counters;
use dataplane::SavedPort;
use std::alloc::Global;
use super::slices::{slice, slice_mut};

/// Which library a program runs: the native one has no such text.
#[unsafe(no_mangle)]
#[allow(non_upper_case_globals, reason = "C has it by this name")]
pub static niw_lag_rust: [u8; 11] = *b"Rust 0.3.0\0";

/// `lagffi_next_move` of lag.h.
#[unsafe(no_mangle)]
pub unsafe extern "C" fn lagffi_next_move(ports: *const u16, port_count: usize, carried: *const Carried, carried_count: usize) -> LagMove {
    unsafe { balancing::lagffi_next_move(slice(ports, port_count), slice(carried, carried_count)) }
}

/// `lagffi_receive` of lag.h.
#[unsafe(no_mangle)]
pub unsafe extern "C" fn lagffi_receive(handle: *mut Lag, port: u16, frame: *const u8, length: usize, response: *mut u8, room: usize) -> LagReceived {
    unsafe { calls::lagffi_receive(Global, &mut *handle, port, slice(frame, length), slice_mut(response, room)) }
}

/// `lagffi_tick` of lag.h.
#[unsafe(no_mangle)]
pub unsafe extern "C" fn lagffi_tick(handle: *mut Lag) -> u32 {
    unsafe { calls::lagffi_tick(Global, &mut *handle) }
}

/// `lagffi_ticks` of lag.h.
#[unsafe(no_mangle)]
pub unsafe extern "C" fn lagffi_ticks(handle: *mut Lag, count: u32) -> u32 {
    unsafe { calls::lagffi_ticks(Global, &mut *handle, count) }
}

/// `lagffi_set_link` of lag.h.
#[unsafe(no_mangle)]
pub unsafe extern "C" fn lagffi_set_link(handle: *mut Lag, port: u16, up: bool) -> u32 {
    unsafe { calls::lagffi_set_link(Global, &mut *handle, port, up) }
}

/// `lagffi_configure` of lag.h.
#[unsafe(no_mangle)]
pub unsafe extern "C" fn lagffi_configure(handle: *mut Lag, port: u16, change: *const LagChange) -> LagTruth {
    unsafe { calls::lagffi_configure(Global, &mut *handle, port, &*change) }
}

/// `lagffi_restart` of lag.h.
#[unsafe(no_mangle)]
pub unsafe extern "C" fn lagffi_restart(handle: *mut Lag) -> u32 {
    unsafe { calls::lagffi_restart(Global, &mut *handle) }
}

/// `lagffi_transmit` of lag.h.
#[unsafe(no_mangle)]
pub unsafe extern "C" fn lagffi_transmit(handle: *mut Lag, port: u16, frame: *mut u8, room: usize) -> LagSent {
    unsafe { calls::lagffi_transmit(Global, &mut *handle, port, slice_mut(frame, room)) }
}

/// `lagffi_offer` of lag.h.
#[unsafe(no_mangle)]
pub unsafe extern "C" fn lagffi_offer(handle: *mut Lag, agg: u16, frame: *const u8, length: usize) -> LagNumber {
    unsafe { calls::lagffi_offer(Global, &mut *handle, agg, slice(frame, length)) }
}

/// `lagffi_move_conversation` of lag.h.
#[unsafe(no_mangle)]
pub unsafe extern "C" fn lagffi_move_conversation(handle: *mut Lag, agg: u16, conv: u16, port: u16) -> u32 {
    unsafe { calls::lagffi_move_conversation(Global, &mut *handle, agg, conv, port) }
}

/// `lagffi_force` of lag.h.
#[unsafe(no_mangle)]
pub unsafe extern "C" fn lagffi_force(handle: *mut Lag, agg: u16, conv: u16) -> u32 {
    unsafe { calls::lagffi_force(Global, &mut *handle, agg, conv) }
}

/// `lagffi_force_port` of lag.h.
#[unsafe(no_mangle)]
pub unsafe extern "C" fn lagffi_force_port(handle: *mut Lag, port: u16) -> LagNumber {
    unsafe { calls::lagffi_force_port(Global, &mut *handle, port) }
}

/// `lagffi_active_aggregator` of lag.h.
#[unsafe(no_mangle)]
pub unsafe extern "C" fn lagffi_active_aggregator(handle: *mut Lag, now: u16) -> LagNumber {
    unsafe { carrying::lagffi_active_aggregator(Global, &mut *handle, now) }
}

/// `lagffi_offer_in_active_aggregator` of lag.h.
#[unsafe(no_mangle)]
pub unsafe extern "C" fn lagffi_offer_in_active_aggregator(handle: *mut Lag, agg: u16, frame: *const u8, length: usize) -> LagNumber {
    unsafe { carrying::lagffi_offer_in_active_aggregator(Global, &mut *handle, agg, slice(frame, length)) }
}

/// `lagffi_offer_conversation_in_active_aggregator` of lag.h.
#[unsafe(no_mangle)]
pub unsafe extern "C" fn lagffi_offer_conversation_in_active_aggregator(handle: *mut Lag, agg: u16, conv: u16) -> LagNumber {
    unsafe { carrying::lagffi_offer_conversation_in_active_aggregator(Global, &mut *handle, agg, conv) }
}

/// `lagffi_decode` of lag.h.
#[unsafe(no_mangle)]
pub unsafe extern "C" fn lagffi_decode(payload: *const u8, length: usize, pdu: *mut LagPdu) -> LagDecoded {
    unsafe { codec::lagffi_decode(slice(payload, length), &mut *pdu) }
}

/// `lagffi_encode` of lag.h.
#[unsafe(no_mangle)]
pub unsafe extern "C" fn lagffi_encode(pdu: *const LagPdu, payload: *mut u8, room: usize) -> u32 {
    unsafe { codec::lagffi_encode(&*pdu, slice_mut(payload, room)) }
}

/// `lagffi_offer_conversation` of lag.h.
#[unsafe(no_mangle)]
pub unsafe extern "C" fn lagffi_offer_conversation(handle: *mut Lag, agg: u16, conv: u16) -> LagNumber {
    unsafe { conversations::lagffi_offer_conversation(Global, &mut *handle, agg, conv) }
}

/// `lagffi_leave_conversation` of lag.h.
#[unsafe(no_mangle)]
pub unsafe extern "C" fn lagffi_leave_conversation(handle: *mut Lag, agg: u16, conv: u16) -> u32 {
    unsafe { conversations::lagffi_leave_conversation(Global, &mut *handle, agg, conv) }
}

/// `lagffi_rest` of lag.h.
#[unsafe(no_mangle)]
pub unsafe extern "C" fn lagffi_rest(handle: *mut Lag, agg: u16, conv: u16) -> u32 {
    unsafe { conversations::lagffi_rest(Global, &mut *handle, agg, conv) }
}

/// `lagffi_adopt` of lag.h.
#[unsafe(no_mangle)]
pub unsafe extern "C" fn lagffi_adopt(handle: *mut Lag, agg: u16, conv: u16, port: u16) -> u32 {
    unsafe { conversations::lagffi_adopt(Global, &mut *handle, agg, conv, port) }
}

/// `lagffi_conversation_ports` of lag.h.
#[unsafe(no_mangle)]
pub unsafe extern "C" fn lagffi_conversation_ports(handle: *mut Lag, agg: u16, ports: *mut u16, port_count: usize, changed: *mut bool, changed_count: usize) -> LagNumber {
    unsafe { conversations::lagffi_conversation_ports(Global, &mut *handle, agg, slice_mut(ports, port_count), slice_mut(changed, changed_count)) }
}

/// `lagffi_released` of lag.h.
#[unsafe(no_mangle)]
pub unsafe extern "C" fn lagffi_released(handle: *mut Lag, agg: u16, busy: *mut bool, busy_count: usize, freed: *mut bool, freed_count: usize) -> LagNumber {
    unsafe { conversations::lagffi_released(Global, &mut *handle, agg, slice_mut(busy, busy_count), slice_mut(freed, freed_count)) }
}

/// `lagffi_new` of lag.h.
#[unsafe(no_mangle)]
pub unsafe extern "C" fn lagffi_new(handle: *mut Lag, config: *const LagConfig, keys: *const u16, key_count: usize, ports: *const LagPort, port_count: usize) -> LagMade {
    unsafe { made::lagffi_new(Global, &mut *handle, &*config, slice(keys, key_count), slice(ports, port_count)) }
}

/// `lagffi_free` of lag.h.
#[unsafe(no_mangle)]
pub unsafe extern "C" fn lagffi_free(handle: *mut Lag) -> u32 {
    unsafe { made::lagffi_free(Global, &mut *handle) }
}

/// `lagffi_due` of lag.h.
#[unsafe(no_mangle)]
pub unsafe extern "C" fn lagffi_due(handle: *mut Lag) -> LagNumber {
    unsafe { masks::lagffi_due(Global, &mut *handle) }
}

/// `lagffi_churn_tick` of lag.h.
#[unsafe(no_mangle)]
pub unsafe extern "C" fn lagffi_churn_tick(churn: *mut LagChurn, up: bool, actor_state: u8, partner_state: u8) -> u32 {
    unsafe { observing::lagffi_churn_tick(&mut *churn, up, actor_state, partner_state) }
}

/// `lagffi_count_received` of lag.h.
#[unsafe(no_mangle)]
pub unsafe extern "C" fn lagffi_count_received(counters: *mut Counters, frame: *const u8, length: usize, what: u32) -> u32 {
    unsafe { observing::lagffi_count_received(&mut *counters, slice(frame, length), what) }
}

/// `lagffi_count_sent` of lag.h.
#[unsafe(no_mangle)]
pub unsafe extern "C" fn lagffi_count_sent(counters: *mut Counters, frame: *const u8, length: usize) -> u32 {
    unsafe { observing::lagffi_count_sent(&mut *counters, slice(frame, length)) }
}

/// `lagffi_probe` of lag.h.
#[unsafe(no_mangle)]
pub unsafe extern "C" fn lagffi_probe(handle: *mut Lag, port: u16, frame: *mut u8, room: usize) -> LagSent {
    unsafe { probing::lagffi_probe(Global, &mut *handle, port, slice_mut(frame, room)) }
}

/// `lagffi_queue_new` of lag.h.
#[unsafe(no_mangle)]
pub unsafe extern "C" fn lagffi_queue_new(handle: *mut LagQueue, conversations: u16, in_all: usize, each: usize) -> u32 {
    unsafe { queues::lagffi_queue_new(Global, &mut *handle, conversations, in_all, each) }
}

/// `lagffi_queue_free` of lag.h.
#[unsafe(no_mangle)]
pub unsafe extern "C" fn lagffi_queue_free(handle: *mut LagQueue) -> u32 {
    unsafe { queues::lagffi_queue_free(Global, &mut *handle) }
}

/// `lagffi_queue_put` of lag.h.
#[unsafe(no_mangle)]
pub unsafe extern "C" fn lagffi_queue_put(handle: *mut LagQueue, conv: u16, frame: u64) -> u32 {
    unsafe { queues::lagffi_queue_put(Global, &mut *handle, conv, frame) }
}

/// `lagffi_queue_next` of lag.h.
#[unsafe(no_mangle)]
pub unsafe extern "C" fn lagffi_queue_next(handle: *mut LagQueue, conv: u16) -> LagQueued {
    unsafe { queues::lagffi_queue_next(Global, &mut *handle, conv) }
}

/// `lagffi_queue_drop` of lag.h.
#[unsafe(no_mangle)]
pub unsafe extern "C" fn lagffi_queue_drop(handle: *mut LagQueue, conv: u16) -> LagQueued {
    unsafe { queues::lagffi_queue_drop(Global, &mut *handle, conv) }
}

/// `lagffi_queue_oldest` of lag.h.
#[unsafe(no_mangle)]
pub unsafe extern "C" fn lagffi_queue_oldest(handle: *mut LagQueue, conv: u16) -> LagQueued {
    unsafe { queues::lagffi_queue_oldest(Global, &mut *handle, conv) }
}

/// `lagffi_queue_next_released` of lag.h.
#[unsafe(no_mangle)]
pub unsafe extern "C" fn lagffi_queue_next_released(handle: *mut LagQueue, ports: *const u16, port_count: usize) -> LagQueued {
    unsafe { queues::lagffi_queue_next_released(Global, &mut *handle, slice(ports, port_count)) }
}

/// `lagffi_queue_waiting` of lag.h.
#[unsafe(no_mangle)]
pub unsafe extern "C" fn lagffi_queue_waiting(handle: *mut LagQueue, conv: u16) -> LagNumber {
    unsafe { queues::lagffi_queue_waiting(Global, &mut *handle, conv) }
}

/// `lagffi_queue_counts` of lag.h.
#[unsafe(no_mangle)]
pub unsafe extern "C" fn lagffi_queue_counts(handle: *mut LagQueue) -> LagQueueCounts {
    unsafe { queues::lagffi_queue_counts(Global, &mut *handle) }
}

/// `lagffi_is_up` of lag.h.
#[unsafe(no_mangle)]
pub unsafe extern "C" fn lagffi_is_up(handle: *mut Lag, port: u16) -> LagTruth {
    unsafe { readers::lagffi_is_up(Global, &mut *handle, port) }
}

/// `lagffi_is_due` of lag.h.
#[unsafe(no_mangle)]
pub unsafe extern "C" fn lagffi_is_due(handle: *mut Lag, port: u16) -> LagTruth {
    unsafe { readers::lagffi_is_due(Global, &mut *handle, port) }
}

/// `lagffi_defaulted` of lag.h.
#[unsafe(no_mangle)]
pub unsafe extern "C" fn lagffi_defaulted(handle: *mut Lag, port: u16) -> LagTruth {
    unsafe { readers::lagffi_defaulted(Global, &mut *handle, port) }
}

/// `lagffi_distributes` of lag.h.
#[unsafe(no_mangle)]
pub unsafe extern "C" fn lagffi_distributes(handle: *mut Lag, port: u16) -> LagTruth {
    unsafe { readers::lagffi_distributes(Global, &mut *handle, port) }
}

/// `lagffi_state` of lag.h.
#[unsafe(no_mangle)]
pub unsafe extern "C" fn lagffi_state(handle: *mut Lag, port: u16) -> LagNumber {
    unsafe { readers::lagffi_state(Global, &mut *handle, port) }
}

/// `lagffi_receive_state` of lag.h.
#[unsafe(no_mangle)]
pub unsafe extern "C" fn lagffi_receive_state(handle: *mut Lag, port: u16) -> LagNumber {
    unsafe { readers::lagffi_receive_state(Global, &mut *handle, port) }
}

/// `lagffi_choice` of lag.h.
#[unsafe(no_mangle)]
pub unsafe extern "C" fn lagffi_choice(handle: *mut Lag, port: u16) -> LagNumber {
    unsafe { readers::lagffi_choice(Global, &mut *handle, port) }
}

/// `lagffi_is_standby` of lag.h.
#[unsafe(no_mangle)]
pub unsafe extern "C" fn lagffi_is_standby(handle: *mut Lag, port: u16) -> LagTruth {
    unsafe { readers::lagffi_is_standby(Global, &mut *handle, port) }
}

/// `lagffi_mux_state` of lag.h.
#[unsafe(no_mangle)]
pub unsafe extern "C" fn lagffi_mux_state(handle: *mut Lag, port: u16) -> LagNumber {
    unsafe { readers::lagffi_mux_state(Global, &mut *handle, port) }
}

/// `lagffi_port_status` of lag.h.
#[unsafe(no_mangle)]
pub unsafe extern "C" fn lagffi_port_status(handle: *mut Lag, port: u16) -> LagNumber {
    unsafe { readers::lagffi_port_status(Global, &mut *handle, port) }
}

/// `lagffi_current_while` of lag.h.
#[unsafe(no_mangle)]
pub unsafe extern "C" fn lagffi_current_while(handle: *mut Lag, port: u16) -> LagNumber {
    unsafe { readers::lagffi_current_while(Global, &mut *handle, port) }
}

/// `lagffi_wait_while` of lag.h.
#[unsafe(no_mangle)]
pub unsafe extern "C" fn lagffi_wait_while(handle: *mut Lag, port: u16) -> LagNumber {
    unsafe { readers::lagffi_wait_while(Global, &mut *handle, port) }
}

/// `lagffi_ntt` of lag.h.
#[unsafe(no_mangle)]
pub unsafe extern "C" fn lagffi_ntt(handle: *mut Lag, port: u16) -> LagTruth {
    unsafe { readers::lagffi_ntt(Global, &mut *handle, port) }
}

/// `lagffi_party` of lag.h.
#[unsafe(no_mangle)]
pub unsafe extern "C" fn lagffi_party(handle: *mut Lag, port: u16) -> LagParty {
    unsafe { readers::lagffi_party(Global, &mut *handle, port) }
}

/// `lagffi_partner` of lag.h.
#[unsafe(no_mangle)]
pub unsafe extern "C" fn lagffi_partner(handle: *mut Lag, port: u16) -> LagInfo {
    unsafe { readers::lagffi_partner(Global, &mut *handle, port) }
}

/// `lagffi_group` of lag.h.
#[unsafe(no_mangle)]
pub unsafe extern "C" fn lagffi_group(handle: *mut Lag, port: u16) -> LagGroup {
    unsafe { readers::lagffi_group(Global, &mut *handle, port) }
}

/// `lagffi_load` of lag.h.
#[unsafe(no_mangle)]
pub unsafe extern "C" fn lagffi_load(handle: *mut Lag, port: u16) -> LagNumber {
    unsafe { readers::lagffi_load(Global, &mut *handle, port) }
}

/// `lagffi_answers` of lag.h.
#[unsafe(no_mangle)]
pub unsafe extern "C" fn lagffi_answers(handle: *mut Lag, port: u16) -> LagNumber {
    unsafe { readers::lagffi_answers(Global, &mut *handle, port) }
}

/// `lagffi_held` of lag.h.
#[unsafe(no_mangle)]
pub unsafe extern "C" fn lagffi_held(handle: *mut Lag, port: u16) -> LagNumber {
    unsafe { readers::lagffi_held(Global, &mut *handle, port) }
}

/// `lagffi_aggregators` of lag.h.
#[unsafe(no_mangle)]
pub unsafe extern "C" fn lagffi_aggregators(handle: *mut Lag) -> LagNumber {
    unsafe { readers::lagffi_aggregators(Global, &mut *handle) }
}

/// `lagffi_conversation` of lag.h.
#[unsafe(no_mangle)]
pub unsafe extern "C" fn lagffi_conversation(handle: *mut Lag, frame: *const u8, length: usize) -> LagNumber {
    unsafe { readers::lagffi_conversation(Global, &mut *handle, slice(frame, length)) }
}

/// `lagffi_conversation_state` of lag.h.
#[unsafe(no_mangle)]
pub unsafe extern "C" fn lagffi_conversation_state(handle: *mut Lag, agg: u16, conv: u16) -> LagAssignment {
    unsafe { readers::lagffi_conversation_state(Global, &mut *handle, agg, conv) }
}

/// `lagffi_next_marker` of lag.h.
#[unsafe(no_mangle)]
pub unsafe extern "C" fn lagffi_next_marker(handle: *mut Lag) -> LagMarker {
    unsafe { readers::lagffi_next_marker(Global, &mut *handle) }
}

/// `lagffi_ticks_until_due` of lag.h.
#[unsafe(no_mangle)]
pub unsafe extern "C" fn lagffi_ticks_until_due(handle: *mut Lag) -> LagWait {
    unsafe { readers::lagffi_ticks_until_due(Global, &mut *handle) }
}

/// `lagffi_ports` of lag.h.
#[unsafe(no_mangle)]
pub unsafe extern "C" fn lagffi_ports(handle: *mut Lag, numbers: *mut u16, room: usize) -> LagNumber {
    unsafe { readers::lagffi_ports(Global, &mut *handle, slice_mut(numbers, room)) }
}

/// `lagffi_distributing` of lag.h.
#[unsafe(no_mangle)]
pub unsafe extern "C" fn lagffi_distributing(handle: *mut Lag, agg: u16, numbers: *mut u16, room: usize) -> LagNumber {
    unsafe { readers::lagffi_distributing(Global, &mut *handle, agg, slice_mut(numbers, room)) }
}

/// `lagffi_resume` of lag.h.
#[unsafe(no_mangle)]
pub unsafe extern "C" fn lagffi_resume(handle: *mut Lag, config: *const LagConfig, keys: *const u16, key_count: usize, ports: *const LagPort, port_count: usize, saved: *const SavedPort, saved_count: usize) -> LagMade {
    unsafe { resuming::lagffi_resume(Global, &mut *handle, &*config, slice(keys, key_count), slice(ports, port_count), slice(saved, saved_count)) }
}

/// `lagffi_hold` of lag.h.
#[unsafe(no_mangle)]
pub unsafe extern "C" fn lagffi_hold(handle: *mut Lag, port: u16, hold: bool) -> u32 {
    unsafe { settings::lagffi_hold(Global, &mut *handle, port, hold) }
}

/// `lagffi_set_mode` of lag.h.
#[unsafe(no_mangle)]
pub unsafe extern "C" fn lagffi_set_mode(handle: *mut Lag, port: u16, active: bool, short_timeout: bool) -> u32 {
    unsafe { settings::lagffi_set_mode(Global, &mut *handle, port, active, short_timeout) }
}

/// `lagffi_set_max_delay` of lag.h.
#[unsafe(no_mangle)]
pub unsafe extern "C" fn lagffi_set_max_delay(handle: *mut Lag, max_delay: u16) -> u32 {
    unsafe { settings::lagffi_set_max_delay(Global, &mut *handle, max_delay) }
}

/// `lagffi_set_max_links` of lag.h.
#[unsafe(no_mangle)]
pub unsafe extern "C" fn lagffi_set_max_links(handle: *mut Lag, max_links: u16) -> u32 {
    unsafe { settings::lagffi_set_max_links(Global, &mut *handle, max_links) }
}

/// `lagffi_set_in_use` of lag.h.
#[unsafe(no_mangle)]
pub unsafe extern "C" fn lagffi_set_in_use(handle: *mut Lag, agg: u16, in_use: bool) -> u32 {
    unsafe { settings::lagffi_set_in_use(Global, &mut *handle, agg, in_use) }
}

/// `lagffi_views` of lag.h.
#[unsafe(no_mangle)]
pub unsafe extern "C" fn lagffi_views(handle: *mut Lag, views: *mut LagView, room: usize) -> LagNumber {
    unsafe { views::lagffi_views(Global, &mut *handle, slice_mut(views, room)) }
}
