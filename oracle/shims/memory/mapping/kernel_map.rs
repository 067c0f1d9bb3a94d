// `memory::mapping::kernel_map`: left out of the comparison, so it is empty.
