/* Where a stream's state has the applied number and an encoder's count: docs/STREAM.md. */
static size_t applied_at(void) { return 8; }
static size_t count_at(uint64_t bank, uint64_t encoder) { return 64 + 8 * (size_t)(10 * bank + encoder); }
