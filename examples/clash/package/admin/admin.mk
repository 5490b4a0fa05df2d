# What an administrator sees when he logs in.
define ADMIN_INSTALL_TARGET_CMDS
	$(INSTALL) -D -m 0644 $(@D)/motd $(TARGET_DIR)/etc/motd
endef

$(eval $(generic-package))
