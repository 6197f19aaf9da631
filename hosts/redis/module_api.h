/* What wasmloop_redis.c uses of Redis' module API (redismodule.h, which Debian 12 does not package), declared anew. */
#include <stddef.h>
#include <stdint.h>
typedef struct RedisModuleCtx RedisModuleCtx;
typedef struct RedisModuleString RedisModuleString;
typedef struct RedisModuleKey RedisModuleKey;
typedef struct RedisModuleIO RedisModuleIO;
typedef struct RedisModuleType RedisModuleType;
typedef struct RedisModuleBlockedClient RedisModuleBlockedClient;
typedef int (*RedisModuleCmdFunc)(RedisModuleCtx *, RedisModuleString **, int);
typedef void (*RedisModuleDisconnectFunc)(RedisModuleCtx *, RedisModuleBlockedClient *);
/* Version 2 of the methods of a type; the module's has nothing but what is saved beside the keys. */
typedef struct RedisModuleTypeMethods {
    uint64_t version;
    void *rdb_load, *rdb_save, *aof_rewrite, *mem_usage, *digest, *free;
    int (*aux_load)(RedisModuleIO *, int, int);
    void (*aux_save)(RedisModuleIO *, int);
    int aux_save_triggers;
} RedisModuleTypeMethods;
#define REDISMODULE_OK 0
#define REDISMODULE_ERR 1
#define REDISMODULE_APIVER_1 1
#define REDISMODULE_READ 1
#define REDISMODULE_KEYTYPE_STRING 1
#define REDISMODULE_AUX_BEFORE_RDB 1
#define REDISMODULE_OPTIONS_HANDLE_IO_ERRORS 1
#define REDISMODULE_CTX_FLAGS_LUA 1
#define REDISMODULE_CTX_FLAGS_MULTI 2
#define REDISMODULE_CTX_FLAGS_DENY_BLOCKING (1 << 21)
#define API(X) \
    X(int, CreateCommand, (RedisModuleCtx *, const char *, RedisModuleCmdFunc, const char *, int, int, int)) \
    X(void, SetModuleAttribs, (RedisModuleCtx *, const char *, int, int)) \
    X(void, SetModuleOptions, (RedisModuleCtx *, int)) \
    X(int, GetContextFlags, (RedisModuleCtx *)) \
    X(int, WrongArity, (RedisModuleCtx *)) \
    X(int, ReplyWithError, (RedisModuleCtx *, const char *)) \
    X(int, ReplyWithSimpleString, (RedisModuleCtx *, const char *)) \
    X(int, ReplyWithStringBuffer, (RedisModuleCtx *, const char *, size_t)) \
    X(int, ReplyWithLongLong, (RedisModuleCtx *, long long)) \
    X(int, ReplyWithArray, (RedisModuleCtx *, long)) \
    X(int, ReplyWithNull, (RedisModuleCtx *)) \
    X(int, ReplicateVerbatim, (RedisModuleCtx *)) \
    X(const char *, StringPtrLen, (const RedisModuleString *, size_t *)) \
    X(int, StringToLongLong, (const RedisModuleString *, long long *)) \
    X(void *, OpenKey, (RedisModuleCtx *, RedisModuleString *, int)) \
    X(void, CloseKey, (RedisModuleKey *)) \
    X(int, KeyType, (RedisModuleKey *)) \
    X(char *, StringDMA, (RedisModuleKey *, size_t *, int)) \
    X(RedisModuleBlockedClient *, BlockClient, (RedisModuleCtx *, RedisModuleCmdFunc, RedisModuleCmdFunc, void (*)(RedisModuleCtx *, void *), long long)) \
    X(int, UnblockClient, (RedisModuleBlockedClient *, void *)) \
    X(void *, GetBlockedClientPrivateData, (RedisModuleCtx *)) \
    X(void, SetDisconnectCallback, (RedisModuleBlockedClient *, RedisModuleDisconnectFunc)) \
    X(RedisModuleType *, CreateDataType, (RedisModuleCtx *, const char *, int, RedisModuleTypeMethods *)) \
    X(void, SaveUnsigned, (RedisModuleIO *, uint64_t)) \
    X(uint64_t, LoadUnsigned, (RedisModuleIO *)) \
    X(void, SaveStringBuffer, (RedisModuleIO *, const char *, size_t)) \
    X(char *, LoadStringBuffer, (RedisModuleIO *, size_t *)) \
    X(int, IsIOError, (RedisModuleIO *)) \
    X(void, Free, (void *)) \
    X(int, EventLoopAdd, (int, int, void (*)(int, void *, int), void *)) \
    X(int, EventLoopDel, (int, int)) \
    X(void, Log, (RedisModuleCtx *, const char *, const char *, ...))
#define X(type, name, args) static type (*RM_##name) args;
API(X)
#undef X
static void module_api(RedisModuleCtx *ctx)
{
    int (*get)(const char *, void **) = ((int (**)(const char *, void **))ctx)[0];
#define X(type, name, args) get("RedisModule_" #name, (void **)&RM_##name);
    API(X)
#undef X
}
