# The small C library: a header to build against, and what programs need on the board.
MUSL_VERSION = 1.2.5
MUSL_INSTALL_STAGING = YES

define MUSL_INSTALL_STAGING_CMDS
	$(INSTALL) -D -m 0644 $(@D)/libc.h $(STAGING_DIR)/usr/include/libc.h
endef

define MUSL_INSTALL_TARGET_CMDS
	$(INSTALL) -D -m 0755 $(@D)/libc.so $(TARGET_DIR)/lib/libc.so
	ln -s libc.so $(TARGET_DIR)/lib/ld-musl.so.1
endef

$(eval $(generic-package))
