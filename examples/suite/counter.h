/* What a lock has to keep: each hart adds 1 to a counter in each round while it holds the lock, by a load, an
   addition and a store. Two that are inside at once may lose an addition. The file that includes this has `acquire`
   and `release`. */
static shared counter;

uint32_t run_hart(uint32_t hart, uint32_t harts)
{
    (void)harts;
    for (uint32_t round = 0; round < ROUNDS; round++) {
        acquire(hart);
        counter = counter + 1;
        release(hart);
    }
    return 0;
}
