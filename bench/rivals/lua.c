/* Lua in the process, round a mutex: one state, whose functions SERVICE.lua gives. The same source is compiled with Lua's headers and with LuaJIT's. */

#include "rounds.h"
#include <lauxlib.h>
#include <lua.h>
#include <lualib.h>
#include <errno.h>
#include <pthread.h>
#include <signal.h>
#include <string.h>
#include <sys/resource.h>
#include <time.h>
#include <unistd.h>

static const struct service *served;
static pthread_mutex_t turn = PTHREAD_MUTEX_INITIALIZER;
static lua_State *state;
static int functions[OPERATIONS];

/* A state with what a file returns, so many values, on its stack. */
static void load(const char *path, int results) {
    state = luaL_newstate();
    if (!state) fail("no Lua");
    luaL_openlibs(state);
    if (luaL_loadfile(state, path) || lua_pcall(state, 0, results, 0)) fail(lua_tostring(state, -1));
}

void rival_open(const struct service *service, int threads, int in_flight) {
    char path[80];
    (void)threads, (void)in_flight;
    served = service;
    snprintf(path, sizeof path, "bench/rivals/%s.lua", service->name);
    load(path, OPERATIONS);
    functions[READ] = luaL_ref(state, LUA_REGISTRYINDEX);
    functions[UPDATE] = luaL_ref(state, LUA_REGISTRYINDEX);
}

void rival_make(int thread, const struct call *calls, int count, int64_t *replies) {
    (void)thread;
    for (int i = 0; i < count; i++) {
        const int values = served->values[calls[i].operation];
        pthread_mutex_lock(&turn);
        lua_rawgeti(state, LUA_REGISTRYINDEX, functions[calls[i].operation]);
        for (int k = 0; k < values; k++) lua_pushinteger(state, (lua_Integer)calls[i].values[k]);
        if (lua_pcall(state, values, 1, 0)) fail(lua_tostring(state, -1));
        replies[i] = (int64_t)lua_tointeger(state, -1);
        lua_pop(state, 1);
        pthread_mutex_unlock(&turn);
    }
}

void rival_close(void) { lua_close(state); }

/* ---- Faults: faults.lua has an operation for each, which moves 1 from one account to another and fails between */

static const char *tried;
static char told[300];
static volatile int is_back;

static void *call_it(void *unused) {
    pthread_mutex_lock(&turn);
    lua_getfield(state, -1, tried);
    int status = lua_pcall(state, 0, 0, 0);
    snprintf(told, sizeof told, "%s", status ? lua_tostring(state, -1) : "nothing");
    lua_settop(state, 1);
    is_back = 1;
    pthread_mutex_unlock(&turn);
    return unused;
}

/* What both accounts hold, or -1 where the lock isn't free within a second. */
static long sum_of_accounts(void) {
    struct timespec until;
    clock_gettime(CLOCK_REALTIME, &until);
    until.tv_sec += 1;
    if (pthread_mutex_timedlock(&turn, &until) == ETIMEDOUT) return -1;
    lua_getfield(state, -1, "sum");
    if (lua_pcall(state, 0, 1, 0)) fail(lua_tostring(state, -1));
    long sum = (long)lua_tointeger(state, -1);
    pthread_mutex_unlock(&turn);
    return sum;
}

/* A wrong address ends the process: that much is told by the handler. */
static void tell_end(int signal) {
    static const char text[] = "the process ends, by SIGSEGV\n";
    (void)signal;
    _exit(write(1, text, sizeof text - 1) > 0 ? 0 : 1);
}

/* Ends a call that has taken too many instructions. */
static void give_up(lua_State *of, lua_Debug *unused) {
    (void)unused;
    luaL_error(of, "too many instructions");
}

void rival_fault(const char *fault) {
    enum { ROOM = 96 << 20, MOST_INSTRUCTIONS = 1000000 };
    struct rlimit most = {ROOM, ROOM};
    struct timespec wait = {0, 200000000};
    pthread_t thread;
    tried = fault;
    load("bench/rivals/faults.lua", 1);
    long before = sum_of_accounts();
    lua_settop(state, 1);
    lua_getfield(state, 1, fault);
    if (lua_isnil(state, -1)) {
        printf("not there\n");
        return;
    }
    lua_settop(state, 1);
    signal(SIGSEGV, tell_end);
    if (strcmp(fault, "hooked") == 0) lua_sethook(state, give_up, LUA_MASKCOUNT, MOST_INSTRUCTIONS);
    if (strcmp(fault, "memory") == 0 && setrlimit(RLIMIT_AS, &most)) fail("no limit");
    if (pthread_create(&thread, NULL, call_it, NULL)) fail("no thread");
    nanosleep(&wait, NULL);
    long after = sum_of_accounts();
    if (after < 0 && is_back) fail("the lock is not free");
    if (after < 0) printf("the call is not back and the mutex not free after 1.2 s: every thread that calls waits, until the process is ended\n");
    else printf("the call answers an error (\"%s\"), and what it did before stands: ", told);
    if (after >= 0) printf("the accounts hold %ld, where it was %ld. Others are answered\n", after, before);
    fflush(stdout);
    _exit(0);
}
