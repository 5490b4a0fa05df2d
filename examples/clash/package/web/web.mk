# A web server, which greets in the same file as the package `admin`.
define WEB_INSTALL_TARGET_CMDS
	$(INSTALL) -D -m 0755 $(@D)/web $(TARGET_DIR)/usr/sbin/web
	echo "the web server listens on port 80" >> $(TARGET_DIR)/etc/motd
endef
WEB_DEPENDENCIES = admin

$(eval $(generic-package))
