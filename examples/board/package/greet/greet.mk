# Greets whoever logs in, with the text of the configuration.
GREET_VERSION = 2
GREET_DEPENDENCIES = libgreet

define GREET_BUILD_CMDS
	cp $(@D)/greet.in $(@D)/greet
	$(SED) 's|@TEXT@|$(call qstrip,$(BR2_PACKAGE_GREET_TEXT))|' $(@D)/greet
endef

define GREET_INSTALL_TARGET_CMDS
	$(INSTALL) -D -m 0755 $(@D)/greet $(TARGET_DIR)/usr/bin/greet
endef

$(eval $(generic-package))
