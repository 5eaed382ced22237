# qemu's machine virt with a 64-bit RISC-V. `run` reads the first three. docs/PORTING.md says what
# libpim for this CPU rests on.
QEMU = qemu-system-riscv64 -M virt -bios none
TOOLS = riscv64-linux-gnu-gcc qemu-system-riscv64 qemu-riscv64-static
PACKAGES = gcc-riscv64-linux-gnu qemu-system-misc qemu-user-static
COMPILER = riscv64-linux-gnu-gcc
# No floating-point registers. Without Zbb, gcc would call its library to count zeros.
CPU = -march=rv64imac_zicsr_zbb -mabi=lp64 -mcmodel=medany -msmall-data-limit=0
LOAD_ADDRESS = 0x80000000
LIBPIM = ../out/riscv64/pim_c_lp64.o
CRATES = $(addprefix ../../crates/,pim_base pim_queue pim_sets pim_chain pim_manager pim_ffi pim_c)

# The script proves libpim, compiles and tests it.
$(LIBPIM): ../riscv64.sh $(shell find $(CRATES:%=%/src) $(CRATES:%=%/specs) \
    $(CRATES:%=%/proofs) -type f)
	../riscv64.sh
