# qemu's machine virt with a 64-bit ARM. `run` reads the first three.
QEMU = qemu-system-aarch64 -M virt -cpu cortex-a53
TOOLS = aarch64-linux-gnu-gcc qemu-system-aarch64
PACKAGES = gcc-aarch64-linux-gnu qemu-system-arm
COMPILER = aarch64-linux-gnu-gcc
# Nothing but libpim uses vector registers: start.S says why.
CPU = -mcpu=cortex-a53 -mgeneral-regs-only -mno-outline-atomics
LOAD_ADDRESS = 0x40080000
TARGET = aarch64-unknown-linux-gnu
LIBPIM = ../out/$(TARGET)/libpim.a

# c/Makefile knows whether libpim is up to date. If it is, nothing is linked again.
$(LIBPIM): always
	$(MAKE) -C .. TARGET=$(TARGET) out/$(TARGET)/libpim.a
