# How the C library takes memory for the program, unless it is set already. Logs grow all the time, so it takes large
# steps, and asks the system for huge pages where it has them: a sixth of the time.
export GLIBC_TUNABLES="${GLIBC_TUNABLES:-glibc.malloc.hugetlb=1:glibc.malloc.top_pad=16777216}"
