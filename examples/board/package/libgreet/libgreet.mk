# Greetings. With a C library that has locales they come in several languages.
LIBGREET_VERSION = 4
LIBGREET_INSTALL_STAGING = YES
LIBGREET_DEPENDENCIES = $(call qstrip,$(BR2_LIBC_NAME))
LIBGREET_LANGUAGES = en

ifeq ($(BR2_PACKAGE_LIBGREET_LOCALES),y)
LIBGREET_LANGUAGES += de fr
endif

define LIBGREET_INSTALL_STAGING_CMDS
	$(INSTALL) -D -m 0644 $(@D)/greet.h $(STAGING_DIR)/usr/include/greet.h
endef

define LIBGREET_INSTALL_TARGET_CMDS
	$(INSTALL) -D -m 0755 $(@D)/libgreet.so.1 $(TARGET_DIR)/usr/lib/libgreet.so.1
	$(INSTALL) -D -m 0644 -t $(TARGET_DIR)/usr/share/greet \
		$(addprefix $(@D)/,$(addsuffix .txt,$(LIBGREET_LANGUAGES)))
endef

$(eval $(generic-package))
