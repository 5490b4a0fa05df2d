# The large C library, with locales.
GLIBC_VERSION = 2.39
GLIBC_INSTALL_STAGING = YES

define GLIBC_INSTALL_STAGING_CMDS
	$(INSTALL) -D -m 0644 $(@D)/libc.h $(STAGING_DIR)/usr/include/libc.h
endef

define GLIBC_INSTALL_TARGET_CMDS
	$(INSTALL) -D -m 0755 $(@D)/libc.so.6 $(TARGET_DIR)/lib/libc.so.6
	ln -s libc.so.6 $(TARGET_DIR)/lib/libc.so
endef

$(eval $(generic-package))
