/* An echo driver for Erlang/OTP: what the project's driver `echo` is compared with. */
#include <erl_driver.h>

static ErlDrvData start(ErlDrvPort port, char *command) { return (ErlDrvData)port; }

static void outputv(ErlDrvData port, ErlIOVec *vector) {
    char bytes[4096];
    ErlDrvSizeT count = driver_vec_to_buf(vector, bytes, sizeof bytes);
    driver_output((ErlDrvPort)port, bytes, count);
}

static ErlDrvEntry entry = {
    .start = start,
    .outputv = outputv,
    .driver_name = "echo",
    .driver_flags = ERL_DRV_FLAG_USE_PORT_LOCKING,
    .extended_marker = ERL_DRV_EXTENDED_MARKER,
    .major_version = ERL_DRV_EXTENDED_MAJOR_VERSION,
    .minor_version = ERL_DRV_EXTENDED_MINOR_VERSION,
};

DRIVER_INIT(echo) { return &entry; }
