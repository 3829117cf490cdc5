/* The tables of IEEE8023-LAG-MIB, which only can be read: each column is a field of a row. */
#define _GNU_SOURCE
#include <net-snmp/net-snmp-config.h>

#include <net-snmp/net-snmp-includes.h>

#include <net-snmp/agent/net-snmp-agent-includes.h>

#include "snmp.h"

/* lagMIBObjects of IEEE8023-LAG-MIB. */
#define OBJECTS 1, 2, 840, 10006, 300, 43, 1

/* What a column has. */
enum kind { NUMBER, COUNT, ADDRESS, STATE, LIST };

struct column {
    unsigned number;
    enum kind kind;
    size_t at; /* the field of the row */
};

#define OF_AGGREGATOR(number, kind, field) {number, kind, offsetof(struct aggregator, field)}
static const struct column AGGREGATOR_COLUMNS[] = {
    OF_AGGREGATOR(2, ADDRESS, address),                /* dot3adAggMACAddress */
    OF_AGGREGATOR(3, NUMBER, actor.system_priority),   /* ActorSystemPriority */
    OF_AGGREGATOR(4, ADDRESS, actor.system),           /* ActorSystemID */
    OF_AGGREGATOR(5, NUMBER, aggregate),               /* AggregateOrIndividual */
    OF_AGGREGATOR(6, NUMBER, admin_key),               /* ActorAdminKey */
    OF_AGGREGATOR(7, NUMBER, actor.key),               /* ActorOperKey */
    OF_AGGREGATOR(8, ADDRESS, partner.system),         /* PartnerSystemID */
    OF_AGGREGATOR(9, NUMBER, partner.system_priority), /* PartnerSystemPriority */
    OF_AGGREGATOR(10, NUMBER, partner.key),            /* PartnerOperKey */
    OF_AGGREGATOR(11, NUMBER, max_delay),              /* CollectorMaxDelay */
};
static const struct column LIST_COLUMNS[] = {
    OF_AGGREGATOR(1, LIST, list), /* dot3adAggPortListPorts */
};

#define OF_PORT(number, kind, field) {number, kind, offsetof(struct port, field)}
static const struct column PORT_COLUMNS[] = {
    OF_PORT(2, NUMBER, actor.system_priority),         /* dot3adAggPortActorSystemPriority */
    OF_PORT(3, ADDRESS, actor.system),                 /* ActorSystemID */
    OF_PORT(4, NUMBER, admin_key),                     /* ActorAdminKey */
    OF_PORT(5, NUMBER, actor.key),                     /* ActorOperKey */
    OF_PORT(6, NUMBER, admin_partner.system_priority), /* PartnerAdminSystemPriority */
    OF_PORT(7, NUMBER, partner.system_priority),       /* PartnerOperSystemPriority */
    OF_PORT(8, ADDRESS, admin_partner.system),         /* PartnerAdminSystemID */
    OF_PORT(9, ADDRESS, partner.system),               /* PartnerOperSystemID */
    OF_PORT(10, NUMBER, admin_partner.key),            /* PartnerAdminKey */
    OF_PORT(11, NUMBER, partner.key),                  /* PartnerOperKey */
    OF_PORT(12, NUMBER, selected),                     /* SelectedAggID */
    OF_PORT(13, NUMBER, attached),                     /* AttachedAggID */
    OF_PORT(14, NUMBER, actor.port),                   /* ActorPort */
    OF_PORT(15, NUMBER, actor.port_priority),          /* ActorPortPriority */
    OF_PORT(16, NUMBER, admin_partner.port),           /* PartnerAdminPort */
    OF_PORT(17, NUMBER, partner.port),                 /* PartnerOperPort */
    OF_PORT(18, NUMBER, admin_partner.port_priority),  /* PartnerAdminPortPriority */
    OF_PORT(19, NUMBER, partner.port_priority),        /* PartnerOperPortPriority */
    OF_PORT(20, STATE, admin_state),                   /* ActorAdminState */
    OF_PORT(21, STATE, actor.state),                   /* ActorOperState */
    OF_PORT(22, STATE, admin_partner.state),           /* PartnerAdminState */
    OF_PORT(23, STATE, partner.state),                 /* PartnerOperState */
    OF_PORT(24, NUMBER, aggregatable),                 /* AggregateOrIndividual */
};
static const struct column COUNT_COLUMNS[] = {
    OF_PORT(1, COUNT, counts[0]), /* dot3adAggPortStatsLACPDUsRx */
    OF_PORT(2, COUNT, counts[1]), /* MarkerPDUsRx */
    OF_PORT(3, COUNT, counts[2]), /* MarkerResponsePDUsRx */
    OF_PORT(4, COUNT, counts[3]), /* UnknownRx */
    OF_PORT(5, COUNT, counts[4]), /* IllegalRx */
    OF_PORT(6, COUNT, counts[5]), /* LACPDUsTx */
    OF_PORT(7, COUNT, counts[6]), /* MarkerPDUsTx */
    OF_PORT(8, COUNT, counts[7]), /* MarkerResponsePDUsTx */
};

struct table {
    const char *name;
    oid object[9];
    const struct column *columns;
    size_t column_count;
    const struct rows *rows;
};

#define COLUMNS(columns) columns, sizeof columns / sizeof *columns
static const struct table TABLES[] = {
    {"dot3adAggTable", {OBJECTS, 1, 1}, COLUMNS(AGGREGATOR_COLUMNS), &now.aggregators},
    {"dot3adAggPortListTable", {OBJECTS, 1, 2}, COLUMNS(LIST_COLUMNS), &now.aggregators},
    {"dot3adAggPortTable", {OBJECTS, 2, 1}, COLUMNS(PORT_COLUMNS), &now.ports},
    {"dot3adAggPortStatsTable", {OBJECTS, 2, 2}, COLUMNS(COUNT_COLUMNS), &now.ports},
};
static const oid LAST_CHANGED[] = {OBJECTS, 3};

/* Writes a value of a row; answers false where it has none. */
static bool write_value(netsnmp_variable_list *to, const struct column *column, const void *row) {
    const void *field = (const char *)row + column->at;
    const struct aggregator *aggregator = row;
    switch (column->kind) {
    case NUMBER: return snmp_set_var_typed_integer(to, ASN_INTEGER, (long)*(const uint32_t *)field) == 0;
    case COUNT: return snmp_set_var_typed_integer(to, ASN_COUNTER, (long)*(const uint32_t *)field) == 0;
    case ADDRESS: return snmp_set_var_typed_value(to, ASN_OCTET_STR, field, 6) == 0;
    case STATE: return snmp_set_var_typed_value(to, ASN_OCTET_STR, field, 1) == 0;
    case LIST:
        return aggregator->list && snmp_set_var_typed_value(to, ASN_OCTET_STR, aggregator->list, aggregator->list_length) == 0;
    }
    return false;
}

/* The name of an object of a table: that of the table, its entry, the column and the index. */
static void write_name(netsnmp_variable_list *to, const struct table *table, const struct column *column, const void *row) {
    enum { LENGTH = sizeof table->object / sizeof *table->object };
    oid name[LENGTH + 3];
    memcpy(name, table->object, sizeof table->object);
    name[LENGTH] = 1;
    name[LENGTH + 1] = column->number;
    name[LENGTH + 2] = *(const uint32_t *)row;
    (void)snmp_set_var_objid(to, name, LENGTH + 3);
}

/* Answers for one object. */
static void get(netsnmp_request_info *request, const netsnmp_table_request_info *asked, const struct table *table) {
    const void *row = asked->index_oid_len == 1 ? find_row(table->rows, asked->index_oid[0]) : NULL;
    for (size_t i = 0; row && i < table->column_count; i++)
        if (table->columns[i].number == asked->colnum && write_value(request->requestvb, &table->columns[i], row)) return;
    (void)netsnmp_set_request_error(NULL, request, SNMP_NOSUCHINSTANCE);
}

/* Answers for the object behind one: of the next row of its column that has a value, or of a column behind it. Where there is none it
 * answers nothing, and the agent looks behind the table. */
static void get_next(netsnmp_request_info *request, const netsnmp_table_request_info *asked, const struct table *table) {
    for (size_t i = 0; i < table->column_count; i++) {
        const struct column *column = &table->columns[i];
        bool within = column->number == asked->colnum && asked->index_oid_len > 0;
        const void *row = row_behind(table->rows, within ? asked->index_oid[0] : 0);
        if (column->number < asked->colnum) continue;
        while (row && !write_value(request->requestvb, column, row)) row = row_behind(table->rows, *(const uint32_t *)row);
        if (!row) continue;
        write_name(request->requestvb, table, column, row);
        return;
    }
}

/* Answers what is asked of a table, by what the daemons told within a second. */
static int refresh_and_answer_table(netsnmp_mib_handler *handler, netsnmp_handler_registration *registration, netsnmp_agent_request_info *asked,
    netsnmp_request_info *requests) {
    const struct table *table = handler->myvoid;
    (void)registration;
    refresh_from_daemons_or_complain();
    for (netsnmp_request_info *request = requests; request; request = request->next) {
        const netsnmp_table_request_info *place = netsnmp_extract_table_info(request);
        if (request->processed || !place) continue;
        if (asked->mode == MODE_GET) get(request, place, table);
        if (asked->mode == MODE_GETNEXT) get_next(request, place, table);
    }
    return SNMP_ERR_NOERROR;
}

static int refresh_and_answer_last_change(netsnmp_mib_handler *handler, netsnmp_handler_registration *registration, netsnmp_agent_request_info *asked,
    netsnmp_request_info *requests) {
    (void)handler;
    (void)registration;
    refresh_from_daemons_or_complain();
    if (asked->mode == MODE_GET) (void)snmp_set_var_typed_integer(requests->requestvb, ASN_TIMETICKS, (long)changed_at());
    return SNMP_ERR_NOERROR;
}

static void register_table_or_stop(const struct table *table) {
    netsnmp_mib_handler *handler = netsnmp_create_handler(table->name, refresh_and_answer_table);
    netsnmp_handler_registration *registration;
    netsnmp_table_registration_info *info = SNMP_MALLOC_TYPEDEF(netsnmp_table_registration_info);
    if (!handler || !info) abort();
    handler->myvoid = (void *)(uintptr_t)table;
    registration = netsnmp_handler_registration_create(table->name, handler, table->object, sizeof table->object / sizeof *table->object,
        HANDLER_CAN_RONLY);
    netsnmp_table_helper_add_indexes(info, ASN_INTEGER, 0);
    info->min_column = table->columns[0].number;
    info->max_column = table->columns[table->column_count - 1].number;
    if (!registration || netsnmp_register_table(registration, info) != MIB_REGISTERED_OK) abort();
}

void register_all_or_stop(void) {
    netsnmp_handler_registration *scalar = netsnmp_create_handler_registration("dot3adTablesLastChanged", refresh_and_answer_last_change,
        LAST_CHANGED, sizeof LAST_CHANGED / sizeof *LAST_CHANGED, HANDLER_CAN_RONLY);
    for (size_t i = 0; i < sizeof TABLES / sizeof *TABLES; i++) register_table_or_stop(&TABLES[i]);
    if (!scalar || netsnmp_register_read_only_scalar(scalar) != MIB_REGISTERED_OK) abort();
}
