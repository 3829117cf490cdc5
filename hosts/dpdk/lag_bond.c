/* SPDX-License-Identifier: BSD-3-Clause
 *
 * lag.c of the library, with the memory of one buffer, and with names of its own: a program that is linked with
 * librte_net_bond.a may have the library of its own, too.
 */
#include "lag_names.h"
#include "lag.c"
