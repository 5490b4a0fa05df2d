# Compression. It is built against whatever C library was chosen.
ZLIB_VERSION = 1.3.1
ZLIB_INSTALL_STAGING = YES
ZLIB_DEPENDENCIES = $(call qstrip,$(BR2_LIBC_NAME))

define ZLIB_INSTALL_STAGING_CMDS
	$(INSTALL) -D -m 0644 $(@D)/zlib.h $(STAGING_DIR)/usr/include/zlib.h
endef

define ZLIB_INSTALL_TARGET_CMDS
	$(INSTALL) -D -m 0755 $(@D)/libz.so.1 $(TARGET_DIR)/usr/lib/libz.so.1
	ln -sf libz.so.1 $(TARGET_DIR)/usr/lib/libz.so
endef

$(eval $(generic-package))
