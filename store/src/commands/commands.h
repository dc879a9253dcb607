/* Commands of an operator, over a job that runs or over what is left of one. */
#ifndef RELKVANU_STORE_COMMANDS_H
#define RELKVANU_STORE_COMMANDS_H
#include "../common.h"

/* recover.c: relkvanu_store_recover, of who holds the lock of the folder. */
int rks_recover_locked(const char *path, const char *folder, uint64_t record, relkvanu_store_recovered *recovered);

/* transfer.c: makes the folder of another job of a record, unless an import or a claim that did not end has done so. */
int rks_carry(const char *from, uint64_t record, const char *folder, relkvanu_store_carried *carried, uint64_t *passed);

/* commands.c: a call of this kind, at the moment of the store's clock. */
relkvanu_call rks_of_kind(uint32_t kind);

#endif
