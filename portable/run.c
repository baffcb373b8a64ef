/* The start of the program. The numbers in its memory that stand for places there are set before. */
#ifdef export___wasm_apply_data_relocs
__attribute__((constructor)) static void set_places(void) { export___wasm_apply_data_relocs(); }
#endif

static int32_t ctd_run(char *stack) {
    sp_least = (u64)(uintptr_t)stack + RESERVE;
    sp = (u64)(uintptr_t)stack + PROGRAM_STACK;
    return (int32_t)export_ctd_main();
}
