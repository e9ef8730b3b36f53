/* flcol_file: foreign tables of the items of files of chunks (docs/FILE.md). A scan reads the chunks alone that its
 * conditions leave.
 *
 * The conditions that a file can answer are a list of numbers and one of expressions in the plan. Their values are known
 * when a scan begins; the executor looks at all conditions again. Parallel workers share how many chunks were taken.
 */
#include "value.h"

#include <access/htup_details.h>
#include <access/reloptions.h>
#include <access/stratnum.h>
#include <access/table.h>
#include <catalog/pg_authid.h>
#include <catalog/pg_foreign_table.h>
#include <catalog/pg_opfamily.h>
#include <catalog/pg_type.h>
#include <commands/defrem.h>
#include <commands/explain.h>
#if PG_VERSION_NUM >= 180000
#include <commands/explain_format.h>
#endif
#include <fcntl.h>
#include <foreign/fdwapi.h>
#include <foreign/foreign.h>
#include <miscadmin.h>
#include <nodes/makefuncs.h>
#include <nodes/nodeFuncs.h>
#include <optimizer/clauses.h>
#include <optimizer/cost.h>
#include <optimizer/optimizer.h>
#include <optimizer/pathnode.h>
#include <optimizer/paths.h>
#include <optimizer/planmain.h>
#include <optimizer/restrictinfo.h>
#include <storage/fd.h>
#include <sys/stat.h>
#include <utils/acl.h>
#include <utils/fmgrprotos.h>
#include <utils/lsyscache.h>
#include <utils/memutils.h>
#include <utils/rel.h>
#include <utils/sampling.h>

#include "file.h"

/* ---- Options ---- */

/* What a table says of its file. */
struct options {
    char *filename;
    bool is_verified;
    int64 first; /* the index of the first row */
};

static int64 integer_option(DefElem *option) {
    return DatumGetInt64(DirectFunctionCall1(int8in, CStringGetDatum(defGetString(option))));
}

static struct options options_of(Oid table) {
    struct options options = {.filename = NULL};
    ListCell *cell;
    foreach (cell, GetForeignTable(table)->options) {
        DefElem *option = lfirst(cell);
        if (strcmp(option->defname, "filename") == 0) options.filename = defGetString(option);
        if (strcmp(option->defname, "verify") == 0) options.is_verified = defGetBoolean(option);
        if (strcmp(option->defname, "first") == 0) options.first = integer_option(option);
    }
    return options;
}

/* Which file of the server is read is said only by who may read each. */
static void check_option(DefElem *option) {
    if (strcmp(option->defname, "filename") == 0) {
        if (has_privs_of_role(GetUserId(), ROLE_PG_READ_SERVER_FILES)) return;
        ereport(ERROR, (errcode(ERRCODE_INSUFFICIENT_PRIVILEGE),
                        errmsg("only roles with the privileges of pg_read_server_files say which file a table has")));
    } else if (strcmp(option->defname, "verify") == 0) {
        (void)defGetBoolean(option);
    } else if (strcmp(option->defname, "first") != 0) {
        ereport(ERROR, (errcode(ERRCODE_FDW_INVALID_OPTION_NAME), errmsg("invalid option \"%s\"", option->defname),
                        errhint("A table of flcol_file has the options filename, verify and first.")));
    } else if (integer_option(option) < 0) {
        ereport(ERROR, (errcode(ERRCODE_INVALID_PARAMETER_VALUE), errmsg("the first index of a file is not below 0")));
    }
}

PG_FUNCTION_INFO_V1(sql_flcol_file_validator);
Datum sql_flcol_file_validator(PG_FUNCTION_ARGS) {
    List *options = untransformRelOptions(PG_GETARG_DATUM(0));
    const bool is_table = PG_GETARG_OID(1) == ForeignTableRelationId;
    bool has_filename = false;
    ListCell *cell;
    if (!is_table && options != NIL)
        ereport(ERROR, (errcode(ERRCODE_FDW_INVALID_OPTION_NAME), errmsg("flcol_file has options of tables alone")));
    foreach (cell, options) {
        check_option(lfirst(cell));
        has_filename |= strcmp(((DefElem *)lfirst(cell))->defname, "filename") == 0;
    }
    if (is_table && !has_filename)
        ereport(ERROR, (errcode(ERRCODE_FDW_DYNAMIC_PARAMETER_VALUE_NEEDED),
                        errmsg("a table of flcol_file needs a filename")));
    PG_RETURN_VOID();
}

/* ---- Columns ---- */

/* Where a table has its columns; 0 where it hasn't one. */
struct columns {
    AttrNumber index;
    AttrNumber value;
};

/* A table has the columns `idx` and `value`, in either order, and both are of the type bigint. */
static struct columns columns_of(TupleDesc row) {
    struct columns columns = {0};
    for (int i = 0; i < row->natts; i++) {
        const Form_pg_attribute column = TupleDescAttr(row, i);
        const bool is_index = strcmp(NameStr(column->attname), "idx") == 0;
        if (column->attisdropped) continue;
        if (!is_index && strcmp(NameStr(column->attname), "value") != 0)
            ereport(ERROR, (errcode(ERRCODE_FDW_COLUMN_NAME_NOT_FOUND),
                            errmsg("a file of chunks has no column \"%s\"", NameStr(column->attname)),
                            errhint("A table of flcol_file has the columns idx and value.")));
        if (column->atttypid != INT8OID)
            ereport(ERROR,
                    (errcode(ERRCODE_FDW_INVALID_DATA_TYPE),
                     errmsg("the column \"%s\" of a file of chunks is of the type bigint", NameStr(column->attname))));
        *(is_index ? &columns.index : &columns.value) = column->attnum;
    }
    return columns;
}

/* ---- Files ---- */

/* Raises the error of a status, and says of which file. */
static void refuse_file(const char *filename, int32_t status) {
    const bool is_item = status == FLCOL_CAST_OUT_OF_RANGE;
    char text[REFUSAL_TEXT];
    if (status == FILE_REFUSED)
        ereport(ERROR, (errcode_for_file_access(), errmsg("could not open file \"%s\": %m", filename)));
    refusal_text(status, text);
    ereport(ERROR, (errcode(is_item ? ERRCODE_NUMERIC_VALUE_OUT_OF_RANGE : container_error_code(status)),
                    errmsg_internal("%s", text), errdetail("The file is \"%s\".", filename)));
}

static void check_file(const char *filename, int32_t status) {
    if (status != FLCOL_OK) refuse_file(filename, status);
}

static void give_back_scan(void *scan) {
    scan_close(scan);
}

/* A scan of a table's file, which is given back with the current memory context. */
static struct scan *open_scan(struct options options) {
    struct scan *scan = palloc0(sizeof *scan);
    scan->file = (struct chunk_file){
        .resize = resize_in, .owner = CurrentMemoryContext, .path = options.filename, .first = options.first};
    hold(give_back_scan, scan);
    const int descriptor = OpenTransientFile(options.filename, O_RDONLY | O_NONBLOCK | PG_BINARY);
    if (descriptor < 0) refuse_file(options.filename, FILE_REFUSED);
    const int32_t status = file_open(&scan->file, descriptor);
    const int reason = errno;
    CloseTransientFile(descriptor);
    errno = reason;
    check_file(options.filename, status);
    return scan;
}

/* ---- Conditions that a file can answer ---- */

/* How a column compares: FLCOL_EQ to FLCOL_LTE, and with nothing. In a plan a condition is one of these, and OF_INDEX more
   where it is of the index. */
enum { IS_NONE = 8, IS_SOME = 9, OF_INDEX = 16 };

/* What is compared with has the type smallint, integer or bigint. */
struct restriction {
    int how;
    Expr *with;
};

/* The number of the operator of btrees of integers that has a strategy. */
static int operator_of_strategy(int strategy) {
    switch (strategy) {
        case BTLessStrategyNumber: return FLCOL_LT;
        case BTLessEqualStrategyNumber: return FLCOL_LTE;
        case BTEqualStrategyNumber: return FLCOL_EQ;
        case BTGreaterEqualStrategyNumber: return FLCOL_GTE;
        default: return FLCOL_GT;
    }
}

/* Whether an expression is a column of the table, and whether it is the index. */
static bool is_column(const RelOptInfo *rel, struct columns columns, const Node *node, int *of_index) {
    const Var *var = (const Var *)node;
    if (!IsA(node, Var) || var->varno != (int)rel->relid || var->varlevelsup != 0 || var->varattno <= 0) return false;
    *of_index = var->varattno == columns.index ? OF_INDEX : 0;
    return var->varattno == columns.index || var->varattno == columns.value;
}

/* Whether a clause compares a column with what is known when a scan begins. */
static bool compares(PlannerInfo *root, const RelOptInfo *rel, struct columns columns, const OpExpr *clause,
                     struct restriction *restriction) {
    if (list_length(clause->args) != 2) return false;
    int of_index = 0;
    Oid operator = clause->opno;
    Node *left = linitial(clause->args), *right = lsecond(clause->args);
    if (!is_column(rel, columns, left, &of_index)) {
        Node *column = right;
        right = left;
        operator = get_commutator(operator);
        if (!is_column(rel, columns, column, &of_index)) return false;
    }
    const int strategy = OidIsValid(operator) ? get_op_opfamily_strategy(operator, INTEGER_BTREE_FAM_OID) : 0;
    if (strategy == 0 || !bms_is_empty(pull_varnos(root, right))) return false;
    if (contain_volatile_functions(right) || contain_subplans(right)) return false;
    *restriction = (struct restriction){.how = operator_of_strategy(strategy) + of_index, .with = (Expr *)right};
    return true;
}

/* Whether a clause is a condition that a file can answer. */
static bool restriction_of(PlannerInfo *root, const RelOptInfo *rel, struct columns columns, Expr *clause,
                         struct restriction *restriction) {
    int of_index = 0;
    if (IsA(clause, OpExpr)) return compares(root, rel, columns, (OpExpr *)clause, restriction);
    if (!IsA(clause, NullTest)) return false;
    const NullTest *test = (NullTest *)clause;
    if (!is_column(rel, columns, (Node *)test->arg, &of_index) || of_index != 0) return false;
    restriction->how = test->nulltesttype == IS_NULL ? IS_NONE : IS_SOME;
    restriction->with = (Expr *)makeBoolConst(true, false);
    return true;
}

static int64 integer_of(Oid type, Datum value) {
    return type == INT2OID ? DatumGetInt16(value) : type == INT4OID ? DatumGetInt32(value) : DatumGetInt64(value);
}

/* Narrows what is asked by a condition. No column compares with a null. */
static void ask(struct asked *asked, int how, Oid type, Datum value, bool is_null) {
    if (how == IS_NONE || how == IS_SOME) {
        *(how == IS_NONE ? &asked->is_null : &asked->is_not_null) = true;
    } else if (is_null) {
        asked->to = 0;
    } else {
        const struct test test = {.op = (uint8_t)(how % OF_INDEX), .constant = integer_of(type, value)};
        (how < OF_INDEX ? ask_value : ask_index)(asked, test);
    }
}

/* ---- Planning ---- */

/* What is read of a file, as far as it is known when a statement is planned. */
struct estimate {
    size_t chunks;
    double items;
    double bytes;
};

/* What is asked of a table by conditions whose values can be told. */
static struct asked asked_by_clauses(PlannerInfo *root, RelOptInfo *rel, struct columns columns) {
    struct asked asked = ask_all();
    ListCell *cell;
    foreach (cell, rel->baserestrictinfo) {
        struct restriction restriction;
        if (!restriction_of(root, rel, columns, lfirst_node(RestrictInfo, cell)->clause, &restriction)) continue;
        const Const *known = (Const *)estimate_expression_value(root, (Node *)restriction.with);
        if (IsA(known, Const)) ask(&asked, restriction.how, known->consttype, known->constvalue, known->constisnull);
    }
    return asked;
}

static struct columns columns_of_table(Oid table) {
    const Relation relation = table_open(table, NoLock);
    const struct columns columns = columns_of(RelationGetDescr(relation));
    table_close(relation, NoLock);
    return columns;
}

/* Reads the foot of a file, and what of the chunks a scan would read. */
static struct estimate *estimate_scan(PlannerInfo *root, RelOptInfo *rel, Oid table) {
    struct estimate *estimate = palloc0(sizeof *estimate);
    MemoryContext room = AllocSetContextCreate(CurrentMemoryContext, "flcol_file", ALLOCSET_DEFAULT_SIZES);
    MemoryContext before = MemoryContextSwitchTo(room);
    const struct options options = options_of(table);
    const struct asked asked = asked_by_clauses(root, rel, columns_of_table(table));
    struct scan *scan = open_scan(options);
    check_file(options.filename, scan_begin(scan, &asked, NULL));
    for (size_t i = 0; i < scan->file.count; i++) {
        if (scan->plan[i] == FLCOL_SKIP) continue;
        estimate->items += (double)scan->file.chunks[i].len;
        estimate->bytes += (double)scan->file.chunks[i].size;
    }
    estimate->chunks = scan->left;
    rel->tuples = (double)scan->file.items;
    rel->pages = (BlockNumber)Min(scan->file.len / BLCKSZ + 1, MaxBlockNumber);
    MemoryContextSwitchTo(before);
    MemoryContextDelete(room);
    return estimate;
}

static void size_table(PlannerInfo *root, RelOptInfo *rel, Oid table) {
    struct estimate *estimate = estimate_scan(root, rel, table);
    const double selected = rel->tuples * clauselist_selectivity(root, rel->baserestrictinfo, 0, JOIN_INNER, NULL);
    rel->rows = clamp_row_est(Min(selected, estimate->items));
    rel->fdw_private = estimate;
}

/* How many workers a scan may have: as many as that of a table of so many rows, and no more than chunks. */
static int workers_of(RelOptInfo *rel, const struct estimate *estimate) {
    const double pages = estimate->items * (SizeofHeapTupleHeader + 2 * sizeof(int64)) / BLCKSZ;
    const int workers = compute_parallel_worker(rel, pages, -1, max_parallel_workers_per_gather);
    return (int)Min((double)workers, (double)estimate->chunks);
}

/* How many processes share the rows, of which the leader is one as long as few others keep it busy. */
static double share_of(int workers) {
    const double leader = parallel_leader_participation ? 1 - 0.3 * workers : 0;
    return workers + Max(leader, 0);
}

/* A path of one process, or of workers that share the chunks. An item that is not answered costs little. */
static ForeignPath *path_of(PlannerInfo *root, RelOptInfo *rel, int workers) {
    const struct estimate *estimate = rel->fdw_private;
    const double share = workers > 0 ? share_of(workers) : 1, rows = clamp_row_est(rel->rows / share);
    const Cost start = rel->baserestrictcost.startup;
    const Cost read = seq_page_cost * estimate->bytes / BLCKSZ + cpu_operator_cost / 10 * estimate->items / share;
    const Cost cost = start + read + (cpu_tuple_cost + rel->baserestrictcost.per_tuple) * rows;
    return create_foreignscan_path(root, rel, NULL, rows,
#if PG_VERSION_NUM >= 180000
                                   0,
#endif
                                   start, cost, NIL, rel->lateral_relids, NULL,
#if PG_VERSION_NUM >= 170000
                                   NIL,
#endif
                                   NIL);
}

static void add_paths(PlannerInfo *root, RelOptInfo *rel, Oid table) {
    const int workers = workers_of(rel, rel->fdw_private);
    add_path(rel, &path_of(root, rel, 0)->path);
    if (!rel->consider_parallel || rel->lateral_relids != NULL || workers < 1) return;
    ForeignPath *path = path_of(root, rel, workers);
    path->path.parallel_aware = true;
    path->path.parallel_workers = workers;
    add_partial_path(rel, &path->path);
}

/* The executor looks at all clauses; those that the file can answer are said to the scan too. */
static ForeignScan *plan_scan(PlannerInfo *root, RelOptInfo *rel, Oid table, ForeignPath *path, List *targets, List *clauses,
                              Plan *outer) {
    const struct columns columns = columns_of_table(table);
    List *numbers = NIL, *expressions = NIL;
    ListCell *cell;
    clauses = extract_actual_clauses(clauses, false);
    foreach (cell, clauses) {
        struct restriction restriction;
        if (!restriction_of(root, rel, columns, lfirst(cell), &restriction)) continue;
        numbers = lappend_int(numbers, restriction.how);
        expressions = lappend(expressions, restriction.with);
    }
    return make_foreignscan(targets, clauses, rel->relid, expressions, numbers, NIL, NIL, outer);
}

/* ---- Scans ---- */

/* What workers share. */
struct shared {
    struct identity identity; /* of the file that the leader has open */
    atomic_size_t taken;
};

/* A scan of a table. */
struct table_scan {
    struct options options;
    struct columns columns;
    List *conditions; /* the states of the expressions */
    struct scan *scan;
    bool is_begun;
    bool is_end;
    struct shared *shared; /* or NULL */
};

static void begin(ForeignScanState *node, int flags) {
    struct table_scan *state = palloc0(sizeof *state);
    state->options = options_of(RelationGetRelid(node->ss.ss_currentRelation));
    state->columns = columns_of(RelationGetDescr(node->ss.ss_currentRelation));
    state->conditions = ExecInitExprList(((ForeignScan *)node->ss.ps.plan)->fdw_exprs, &node->ss.ps);
    state->scan = open_scan(state->options);
    node->fdw_state = state;
}

/* Whether an expression has a parameter whose value is not known before the statement runs. */
static bool is_open(Node *node, void *parameters) {
    if (node == NULL) return false;
    if (IsA(node, Param)) return ((Param *)node)->paramkind != PARAM_EXTERN || parameters == NULL;
    return expression_tree_walker(node, is_open, parameters);
}

/* What is asked now; where the statement is explained alone, by the conditions that are known. */
static struct asked asked_now(ForeignScanState *node, bool is_explained) {
    const ForeignScan *plan = (const ForeignScan *)node->ss.ps.plan;
    const struct table_scan *state = node->fdw_state;
    struct asked asked = ask_all();
    ListCell *number, *expression, *condition;
    forthree (number, plan->fdw_private, expression, plan->fdw_exprs, condition, state->conditions) {
        bool is_null;
        if (is_explained && is_open(lfirst(expression), node->ss.ps.state->es_param_list_info)) continue;
        const Datum value = ExecEvalExprSwitchContext(lfirst(condition), node->ss.ps.ps_ExprContext, &is_null);
        ask(&asked, lfirst_int(number), exprType(lfirst(expression)), value, is_null);
    }
    return asked;
}

/* Plans which chunks are read. */
static void begin_rows(ForeignScanState *node, bool is_explained) {
    struct table_scan *state = node->fdw_state;
    const struct asked asked = asked_now(node, is_explained);
    atomic_size_t *taken = state->shared == NULL ? NULL : &state->shared->taken;
    check_file(state->options.filename, scan_begin(state->scan, &asked, taken));
    state->is_begun = !is_explained;
    state->is_end = false;
}

/* Verifies the file where its table asks for that, once. */
static void verify(struct table_scan *state) {
    if (state->options.is_verified) check_file(state->options.filename, file_verify(&state->scan->file));
    state->options.is_verified = false;
}

/* The next row of the scan, unless there is none. The statement can be cancelled between two windows. */
static bool next_row(struct table_scan *state, struct row *row) {
    bool is_row = false;
    check_file(state->options.filename, scan_row(state->scan, row, &is_row));
    while (!is_row && !state->is_end) {
        CHECK_FOR_INTERRUPTS();
        check_file(state->options.filename, scan_window(state->scan, &state->is_end));
        check_file(state->options.filename, scan_row(state->scan, row, &is_row));
    }
    return is_row;
}

static void put_row(const struct columns *columns, const struct row *row, Datum *values, bool *nulls, int count) {
    memset(nulls, true, (size_t)count * sizeof *nulls);
    if (columns->index > 0) {
        values[columns->index - 1] = Int64GetDatum(row->index);
        nulls[columns->index - 1] = false;
    }
    if (columns->value > 0) {
        values[columns->value - 1] = Int64GetDatum(row->item.is_null ? 0 : row->item.value);
        nulls[columns->value - 1] = row->item.is_null;
    }
}

static TupleTableSlot *iterate(ForeignScanState *node) {
    struct table_scan *state = node->fdw_state;
    TupleTableSlot *slot = node->ss.ss_ScanTupleSlot;
    struct row row;
    ExecClearTuple(slot);
    if (!state->is_begun) {
        verify(state);
        begin_rows(node, false);
    }
    if (!next_row(state, &row)) return slot;
    put_row(&state->columns, &row, slot->tts_values, slot->tts_isnull, slot->tts_tupleDescriptor->natts);
    return ExecStoreVirtualTuple(slot);
}

static void rescan(ForeignScanState *node) {
    ((struct table_scan *)node->fdw_state)->is_begun = false;
}

static void end(ForeignScanState *node) {
    struct table_scan *state = node->fdw_state;
    if (state != NULL) scan_close(state->scan);
}

static void explain(ForeignScanState *node, ExplainState *to) {
    struct table_scan *state = node->fdw_state;
    if (!state->is_begun) begin_rows(node, true);
    ExplainPropertyText("File", state->options.filename, to);
    ExplainPropertyText("Chunks", psprintf("%zu of %zu", state->scan->left, state->scan->file.count), to);
}

/* ---- Workers ---- */

static bool is_safe_for_workers(PlannerInfo *root, RelOptInfo *rel, RangeTblEntry *table) {
    return true;
}

static Size shared_size(ForeignScanState *node, ParallelContext *context) {
    return sizeof(struct shared);
}

static void share(ForeignScanState *node, ParallelContext *context, void *place) {
    struct table_scan *state = node->fdw_state;
    verify(state);
    state->shared = place;
    state->shared->identity = state->scan->file.identity;
    atomic_init(&state->shared->taken, 0);
}

static void share_again(ForeignScanState *node, ParallelContext *context, void *place) {
    atomic_store(&((struct shared *)place)->taken, 0);
}

/* A worker has the file that its leader has, which has verified it. */
static void take_share(ForeignScanState *node, shm_toc *toc, void *place) {
    struct table_scan *state = node->fdw_state;
    state->shared = place;
    state->options.is_verified = false;
    if (memcmp(&state->shared->identity, &state->scan->file.identity, sizeof state->shared->identity) != 0)
        ereport(ERROR, (errcode(ERRCODE_OBJECT_NOT_IN_PREREQUISITE_STATE),
                        errmsg("the file \"%s\" was changed while it was opened", state->options.filename)));
}

/* ---- ANALYZE ---- */

/* The row of an index that is not before the next row. */
static struct row row_at(struct table_scan *state, int64 index) {
    struct scan *scan = state->scan;
    struct row row = {0};
    while (index - scan->first >= (int64)scan->end && !state->is_end) {
        CHECK_FOR_INTERRUPTS();
        check_file(state->options.filename, scan_window(scan, &state->is_end));
    }
    scan->at = (size_t)(index - scan->first);
    next_row(state, &row);
    return row;
}

/* Takes rows in their order: of as many parts of the file as rows are wanted one at random. */
static int sample(Relation relation, int level, HeapTuple *rows, int wanted, double *all, double *dead) {
    const TupleDesc of = RelationGetDescr(relation);
    const struct columns columns = columns_of(of);
    const struct asked asked = ask_all();
    struct table_scan state = {.options = options_of(RelationGetRelid(relation))};
    state.scan = open_scan(state.options);
    check_file(state.options.filename, scan_begin(state.scan, &asked, NULL));
    const int64 items = state.scan->file.items;
    const int count = (int)Min((int64)wanted, items);
    Datum *values = palloc0((size_t)of->natts * sizeof *values);
    bool *nulls = palloc((size_t)of->natts * sizeof *nulls);
    for (int i = 0; i < count; i++) {
        const int64 from = (int64)((wide)items * i / count), to = (int64)((wide)items * (i + 1) / count);
        const int64 at = from + Min((int64)(anl_random_fract() * (double)(to - from)), to - from - 1);
        const struct row row = row_at(&state, state.options.first + at);
        put_row(&columns, &row, values, nulls, of->natts);
        rows[i] = heap_form_tuple(of, values, nulls);
    }
    scan_close(state.scan);
    *all = (double)items;
    *dead = 0;
    return count;
}

static bool analyze(Relation relation, AcquireSampleRowsFunc *acquire, BlockNumber *pages) {
    const struct options options = options_of(RelationGetRelid(relation));
    struct stat said;
    if (stat(options.filename, &said) != 0) refuse_file(options.filename, FILE_REFUSED);
    *acquire = sample;
    *pages = (BlockNumber)Min(said.st_size / BLCKSZ + 1, (off_t)MaxBlockNumber);
    return true;
}

PG_FUNCTION_INFO_V1(sql_flcol_file_handler);
Datum sql_flcol_file_handler(PG_FUNCTION_ARGS) {
    FdwRoutine *routine = makeNode(FdwRoutine);
    routine->GetForeignRelSize = size_table;
    routine->GetForeignPaths = add_paths;
    routine->GetForeignPlan = plan_scan;
    routine->BeginForeignScan = begin;
    routine->IterateForeignScan = iterate;
    routine->ReScanForeignScan = rescan;
    routine->EndForeignScan = end;
    routine->ExplainForeignScan = explain;
    routine->AnalyzeForeignTable = analyze;
    routine->IsForeignScanParallelSafe = is_safe_for_workers;
    routine->EstimateDSMForeignScan = shared_size;
    routine->InitializeDSMForeignScan = share;
    routine->ReInitializeDSMForeignScan = share_again;
    routine->InitializeWorkerForeignScan = take_share;
    PG_RETURN_POINTER(routine);
}
