/* An extension of freeDiameter's daemon: it supports an application of a vendor, 16777251 (S6a) of 10415 (3GPP), for
   authorization, and so names it in its CER and CEA (RFC 6733, 6.11). Built and loaded by live/try. */
#include <freeDiameter/extension.h>

static int entry(char *unused)
{
	struct dict_vendor_data vendor = { 10415, "3GPP" };
	struct dict_application_data application = { 16777251, "S6a" };
	struct dict_object *its_vendor, *itself;

	(void)unused;
	CHECK_FCT(fd_dict_new(fd_g_config->cnf_dict, DICT_VENDOR, &vendor, NULL, &its_vendor));
	CHECK_FCT(fd_dict_new(fd_g_config->cnf_dict, DICT_APPLICATION, &application, its_vendor, &itself));
	return fd_disp_app_support(itself, its_vendor, 1, 0);
}

EXTENSION_ENTRY("vendor_application", entry);
