# Lines of tests/lacp.at and tests/ofproto-dpif.at of Open vSwitch that IEEE 802.1AX-2014 contradicts, as lacp.c of this folder has them.

/^AT_SETUP(\[lacp - config\])/,/^AT_CLEANUP/ {
    # No partner was heard: none negotiated, and the port is in no aggregator (6.4.15: DETACHED until Selected is SELECTED).
    s/^  status: active negotiated$/  status: active/
    s/^member: p1: expired attached$/member: p1: expired detached/
    # INITIALIZE executes recordDefault, which sets Actor_State.Defaulted (6.4.9, 6.4.12). Synchronization, Collecting and Distributing are
    # FALSE in DETACHED (6.4.15).
    s/^  actor state: activity synchronized collecting distributing expired$/  actor state: activity defaulted expired/
}
/^AT_SETUP(\[lacp - multi port config\])/,/^AT_CLEANUP/ {
    s/^  status: active negotiated$/  status: active/
    s/^lacp_status: negotiated$/lacp_status: configured/
    s/^member: \(p[12]\): expired attached$/member: \1: expired detached/
    s/^  actor state: activity timeout aggregation synchronized collecting distributing expired$/  actor state: activity timeout aggregation defaulted expired/
}
/^AT_SETUP(\[lacp - negotiation\])/,/^AT_CLEANUP/ {
    # EXPIRED sets Partner_Oper_Port_State.Synchronization to FALSE (6.4.12), with which the Mux machine goes back to ATTACHED, where
    # Collecting and Distributing are FALSE (6.4.15).
    s/^  actor state: activity timeout aggregation synchronized collecting distributing expired$/  actor state: activity timeout aggregation synchronized expired/
    # recordDefault sets Partner_Oper_Port_State.Synchronization to TRUE (6.4.9): the port is a link of its own, in an aggregator of its own, which is
    # not the one that the bond uses.
    s/^  actor state: activity timeout aggregation defaulted$/  actor state: activity timeout aggregation synchronized collecting distributing defaulted/
    s/^  partner state:$/  partner state: synchronized/
}
/^AT_SETUP(\[ofproto-dpif - sFlow packet sampling - LACP structures\])/,/^AT_CLEANUP/ {
    # The state octet as in "multi port config".
    s/^        actorOper=0xbf$/        actorOper=0xc7/
    # The first LACPDU comes when periodic_timer expires, after fast_periodic_time (6.4.13). The clock goes on until the test stops it, so how many
    # were sent when sFlow asks first depends on the machine: as many as frames left the interface in the same sample.
    s/^AT_CHECK(\[\[sort sflow\.log |/AT_CHECK([[sed '\/^IFCOUNTERS\/{h;d};\/^LACPCOUNTERS\/{G;s\/LACPDUsTx=\\([0-9]*\\) \\(.*\\)\\n.*out_unicasts=\\1 .*\/LACPDUsTx=out_unicasts \\2\/;s\/\\n.*\/\/}' sflow.log | sort |/
    s/^        LACPDUsTx=1$/        LACPDUsTx=out_unicasts/
}
