# Reads the sensors, packs what they say by a tool of the host, and sends it on.
GATEWAYD_VERSION = 0.9
GATEWAYD_DEPENDENCIES = host-mkpack zlib

ifeq ($(BR2_PACKAGE_LIBGREET),y)
GATEWAYD_DEPENDENCIES += libgreet
endif

define GATEWAYD_CONFIGURE_CMDS
	printf 'sensors %s\n' $(BR2_PACKAGE_GATEWAYD_SENSORS) > $(@D)/gatewayd.conf
endef

define GATEWAYD_BUILD_CMDS
	cp $(HOST_DIR)/bin/mkpack $(@D)/mkpack
endef

define GATEWAYD_INSTALL_TARGET_CMDS
	$(INSTALL) -D -m 0755 $(@D)/gatewayd $(TARGET_DIR)/usr/sbin/gatewayd
	$(INSTALL) -D -m 0644 $(@D)/gatewayd.conf $(TARGET_DIR)/etc/gatewayd.conf
	$(INSTALL) -D -m 0755 $(GATEWAYD_PKGDIR)/S60gatewayd $(TARGET_DIR)/etc/init.d/S60gatewayd
endef

ifeq ($(BR2_PACKAGE_GATEWAYD_LOG),y)
define GATEWAYD_LOG
	echo "log all" >> $(TARGET_DIR)/etc/gatewayd.conf
endef
GATEWAYD_POST_INSTALL_TARGET_HOOKS += GATEWAYD_LOG
endif

$(eval $(generic-package))
