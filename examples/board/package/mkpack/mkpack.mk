# A packer that runs on the host. It has no entry in the menus: a package that needs it names it.
define HOST_MKPACK_INSTALL_CMDS
	$(INSTALL) -D -m 0755 $(@D)/mkpack $(HOST_DIR)/bin/mkpack
endef

$(eval $(host-generic-package))
