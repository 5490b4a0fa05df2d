# The first process, and what it reads when the board boots.
TINIT_VERSION = 1
TINIT_DEPENDENCIES = $(call qstrip,$(BR2_LIBC_NAME))

define TINIT_INSTALL_TARGET_CMDS
	$(INSTALL) -D -m 0755 $(@D)/tinit $(TARGET_DIR)/sbin/tinit
	ln -s sbin/tinit $(TARGET_DIR)/init
	mkdir -p $(TARGET_DIR)/etc/init.d
endef

define TINIT_HOSTNAME
	printf '%s\n' '$(call qstrip,$(BR2_HOSTNAME))' > $(TARGET_DIR)/etc/hostname
endef
TINIT_POST_INSTALL_TARGET_HOOKS += TINIT_HOSTNAME

ifeq ($(BR2_PACKAGE_TINIT_CONSOLE),y)
define TINIT_CONSOLE
	echo "ttyS$(BR2_UART) $(BR2_UART_BAUD)" > $(TARGET_DIR)/etc/console
endef
TINIT_POST_INSTALL_TARGET_HOOKS += TINIT_CONSOLE
endif

$(eval $(generic-package))
