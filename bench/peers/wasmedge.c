/* WasmEdge's interpreter, as run.py of ../libraries runs it. The usage is that of ours.c behind `plain` or `fuel`, which limits the cost of
   operations, 1 each; `late` cancels an asynchronous call. */
#define _POSIX_C_SOURCE 200809L
#include <wasmedge/wasmedge.h>
#include "peer.h"

#define IMPORTS 64
#define AMPLE UINT64_MAX

typedef const WasmEdge_CallingFrameContext frame;

static WasmEdge_LoaderContext *loader;
static WasmEdge_ValidatorContext *validator;
static WasmEdge_ExecutorContext *executor;
static WasmEdge_StoreContext *store;
static WasmEdge_StatisticsContext *statistics; /* NULL: no fuel */
static uint8_t input[MOST], reply[65536];
static size_t input_length, reply_length;

static void must(WasmEdge_Result result, const char *call)
{
    if (!WasmEdge_ResultOK(result)) {
        fprintf(stderr, "%s: %s\n", call, WasmEdge_ResultGetMessage(result));
        exit(1);
    }
}

static WasmEdge_Result answer(WasmEdge_Value *results, int32_t number)
{
    results[0] = WasmEdge_ValueGenI32(number);
    return WasmEdge_Result_Success;
}

static WasmEdge_Result in_len(void *data, frame *caller, const WasmEdge_Value *params, WasmEdge_Value *results)
{
    (void)data, (void)caller, (void)params;
    return answer(results, (int32_t)input_length);
}

static WasmEdge_Result in_copy(void *data, frame *caller, const WasmEdge_Value *params, WasmEdge_Value *results)
{
    (void)data;
    uint32_t to = (uint32_t)WasmEdge_ValueGetI32(params[0]), from = (uint32_t)WasmEdge_ValueGetI32(params[1]);
    uint32_t length = (uint32_t)WasmEdge_ValueGetI32(params[2]);
    WasmEdge_MemoryInstanceContext *memory = WasmEdge_CallingFrameGetMemoryInstance(caller, 0);
    if ((size_t)from + length > input_length)
        return answer(results, -22);
    return answer(results, WasmEdge_ResultOK(WasmEdge_MemoryInstanceSetData(memory, input + from, to, length)) ? 0 : -14);
}

static WasmEdge_Result out_set(void *data, frame *caller, const WasmEdge_Value *params, WasmEdge_Value *results)
{
    (void)data;
    uint32_t at = (uint32_t)WasmEdge_ValueGetI32(params[0]), length = (uint32_t)WasmEdge_ValueGetI32(params[1]);
    WasmEdge_MemoryInstanceContext *memory = WasmEdge_CallingFrameGetMemoryInstance(caller, 0);
    if (length > sizeof reply)
        return answer(results, -22);
    if (!WasmEdge_ResultOK(WasmEdge_MemoryInstanceGetData(memory, reply, at, length)))
        return answer(results, -14);
    reply_length = length;
    return answer(results, 0);
}

/* Every other call of "uv" returns -1. */
static WasmEdge_Result minus_one(void *type, frame *caller, const WasmEdge_Value *params, WasmEdge_Value *results)
{
    (void)caller, (void)params;
    WasmEdge_ValType result;
    if (WasmEdge_FunctionTypeGetReturns(type, &result, 1) == 1)
        results[0] = WasmEdge_ValTypeIsI64(result) ? WasmEdge_ValueGenI64(-1) : WasmEdge_ValueGenI32(-1);
    return WasmEdge_Result_Success;
}

static WasmEdge_HostFunc_t host_function(const char *name, size_t length)
{
    static const struct {
        const char *name;
        WasmEdge_HostFunc_t function;
    } known[] = { { "in_len", in_len }, { "in_copy", in_copy }, { "out_set", out_set } };
    for (size_t k = 0; k < sizeof known / sizeof *known; k++)
        if (strlen(known[k].name) == length && !memcmp(known[k].name, name, length))
            return known[k].function;
    return minus_one;
}

static void import_all(const WasmEdge_ASTModuleContext *module)
{
    const WasmEdge_ImportTypeContext *imports[IMPORTS];
    WasmEdge_ModuleInstanceContext *uv = WasmEdge_ModuleInstanceCreate(WasmEdge_StringWrap("uv", 2));
    uint32_t count = WasmEdge_ASTModuleListImports(module, imports, IMPORTS);
    for (uint32_t k = 0; k < count; k++) {
        WasmEdge_String name = WasmEdge_ImportTypeGetExternalName(imports[k]);
        const WasmEdge_FunctionTypeContext *type = WasmEdge_ImportTypeGetFunctionType(module, imports[k]);
        WasmEdge_HostFunc_t function = host_function(name.Buf, name.Length);
        WasmEdge_ModuleInstanceAddFunction(uv, name, WasmEdge_FunctionInstanceCreate(type, function, (void *)type, 0));
    }
    must(WasmEdge_ExecutorRegisterImport(executor, store, uv), "imports");
}

static WasmEdge_ASTModuleContext *parse(const uint8_t *bytes, size_t length)
{
    WasmEdge_ASTModuleContext *module = NULL;
    must(WasmEdge_LoaderParseFromBytes(loader, &module, WasmEdge_BytesWrap(bytes, (uint32_t)length)), "parse");
    must(WasmEdge_ValidatorValidate(validator, module), "validate");
    return module;
}

static WasmEdge_ModuleInstanceContext *instance_of(const WasmEdge_ASTModuleContext *module)
{
    WasmEdge_ModuleInstanceContext *instance = NULL;
    must(WasmEdge_ExecutorInstantiate(executor, &instance, store, module), "instantiate");
    return instance;
}

static WasmEdge_FunctionInstanceContext *function_of(const WasmEdge_ModuleInstanceContext *instance, const char *name)
{
    return WasmEdge_ModuleInstanceFindFunction(instance, WasmEdge_StringWrap(name, (uint32_t)strlen(name)));
}

static int32_t invoke(const WasmEdge_ModuleInstanceContext *instance, const char *name, const WasmEdge_Value *params, uint32_t count)
{
    WasmEdge_Value result;
    must(WasmEdge_ExecutorInvoke(executor, function_of(instance, name), params, count, &result, 1), name);
    return WasmEdge_ValueGetI32(result);
}

static void call(const WasmEdge_ASTModuleContext *module, int calls)
{
    WasmEdge_ModuleInstanceContext *instance = instance_of(module);
    uint64_t fastest = UINT64_MAX;
    int32_t result = 0;
    for (int k = 0; k < calls; k++) {
        uint64_t began = now();
        result = invoke(instance, "run", NULL, 0);
        least(&fastest, began);
    }
    printf("%" PRIu32 " %" PRIu64 "\n", (uint32_t)result, fastest);
    WasmEdge_ModuleInstanceDelete(instance);
}

static void work(const WasmEdge_ASTModuleContext *module, uint32_t op, const char *name, int calls)
{
    input_length = read_file(name, input);
    uint64_t fastest = UINT64_MAX;
    int32_t result = 0;
    for (int k = 0; k < calls; k++) {
        uint64_t began = now();
        WasmEdge_ModuleInstanceContext *instance = instance_of(module);
        WasmEdge_Value params = WasmEdge_ValueGenI32((int32_t)op);
        reply_length = 0;
        result = invoke(instance, "uv_work", &params, 1);
        WasmEdge_ModuleInstanceDelete(instance);
        least(&fastest, began);
    }
    printf("%" PRId32 " %zu:%016" PRIx64 " %" PRIu64 "\n", result, reply_length, sum(reply, reply_length), fastest);
}

static void load(const uint8_t *bytes, size_t length, int calls)
{
    uint64_t fastest = UINT64_MAX;
    long before = resident();
    for (int k = 0; k < calls; k++) {
        uint64_t began = now();
        parse(bytes, length); /* kept to the end */
        least(&fastest, began);
    }
    printf("%ld %" PRIu64 "\n", (resident() - before) / calls, fastest);
}

static void fuel(const WasmEdge_ASTModuleContext *module, uint64_t units)
{
    WasmEdge_ModuleInstanceContext *instance = instance_of(module);
    WasmEdge_Value result;
    WasmEdge_StatisticsClear(statistics);
    WasmEdge_StatisticsSetCostLimit(statistics, units);
    WasmEdge_ExecutorInvoke(executor, function_of(instance, "line"), NULL, 0, &result, 1);
    uint64_t used = WasmEdge_StatisticsGetTotalCost(statistics);
    WasmEdge_StatisticsClear(statistics);
    WasmEdge_StatisticsSetCostLimit(statistics, AMPLE);
    printf("%" PRId32 " %" PRIu64 "\n", invoke(instance, "count", NULL, 0), used);
}

static void late(const WasmEdge_ASTModuleContext *module, int calls)
{
    const WasmEdge_FunctionInstanceContext *function = function_of(instance_of(module), "run");
    lateness all = { 0 };
    for (int k = 0; k < calls; k++) {
        uint64_t deadline = now() + DEADLINE;
        WasmEdge_Async *call = WasmEdge_ExecutorAsyncInvoke(executor, function, NULL, 0);
        WasmEdge_AsyncWaitFor(call, DEADLINE / 1000000);
        WasmEdge_AsyncCancel(call);
        WasmEdge_AsyncWait(call);
        stopped(&all, deadline);
        WasmEdge_AsyncDelete(call);
    }
    show_lateness(&all, calls);
}

static void start(bool has_fuel)
{
    WasmEdge_ConfigureContext *configure = WasmEdge_ConfigureCreate();
    WasmEdge_ConfigureStatisticsSetCostMeasuring(configure, has_fuel);
    loader = WasmEdge_LoaderCreate(configure);
    validator = WasmEdge_ValidatorCreate(configure);
    statistics = has_fuel ? WasmEdge_StatisticsCreate() : NULL;
    executor = WasmEdge_ExecutorCreate(configure, statistics);
    store = WasmEdge_StoreCreate();
    if (has_fuel)
        WasmEdge_StatisticsSetCostLimit(statistics, AMPLE);
}

static int command(const uint8_t *bytes, size_t length, int count, char **words)
{
    WasmEdge_ASTModuleContext *module = parse(bytes, length);
    import_all(module);
    if (!strcmp(words[0], "call"))
        call(module, atoi(words[2]));
    else if (!strcmp(words[0], "work") && count == 5)
        work(module, (uint32_t)strtoul(words[2], NULL, 10), words[3], atoi(words[4]));
    else if (!strcmp(words[0], "load"))
        load(bytes, length, atoi(words[2]));
    else if (!strcmp(words[0], "fuel") && statistics)
        fuel(module, strtoull(words[2], NULL, 10));
    else if (!strcmp(words[0], "late"))
        late(module, atoi(words[2]));
    else
        return 2;
    return 0;
}

int main(int argc, char **argv)
{
    static uint8_t bytes[MOST];
    if (argc < 5)
        return 2;
    WasmEdge_LogOff();
    start(!strcmp(argv[1], "fuel"));
    return command(bytes, read_file(argv[3], bytes), argc - 2, argv + 2);
}
