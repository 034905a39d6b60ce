/* Put before rig.c it gives the entries names of their own, so that rig.c can stand beside the archive in one program. */
#ifndef RENAMED_H
#define RENAMED_H

#define rig_pec printed_pec
#define rig_write printed_write
#define rig_chain printed_chain
#define rig_read printed_read
#define rig_cells printed_cells
#define rig_tally_add printed_tally_add
#define rig_wake printed_wake
#define rig_conversion_code printed_conversion_code
#define rig_conversion_of printed_conversion_of
#define rig_log_put printed_log_put
#define rig_log_at printed_log_at
#define rig_log_walk printed_log_walk

#endif
