/* The commands by name. */
#include "names.h"

#include <stddef.h>

static const struct {
    uint32_t code;
    const char *name;
} commands[] = {
    {RIG_WRCFGA, "WRCFGA"},   {RIG_RDCFGA, "RDCFGA"},   {RIG_WRCFGB, "WRCFGB"},   {RIG_RDCFGB, "RDCFGB"}, {RIG_RDCVA, "RDCVA"},
    {RIG_RDCVB, "RDCVB"},     {RIG_RDCVC, "RDCVC"},     {RIG_RDCVD, "RDCVD"},     {RIG_RDCVE, "RDCVE"},   {RIG_RDCVF, "RDCVF"},
    {RIG_RDAUXA, "RDAUXA"},   {RIG_RDAUXB, "RDAUXB"},   {RIG_RDAUXC, "RDAUXC"},   {RIG_RDAUXD, "RDAUXD"}, {RIG_RDSTATA, "RDSTATA"},
    {RIG_RDSTATB, "RDSTATB"}, {RIG_WRCOMM, "WRCOMM"},   {RIG_RDCOMM, "RDCOMM"},   {RIG_WRSCTRL, "WRSCTRL"}, {RIG_RDSCTRL, "RDSCTRL"},
    {RIG_WRPWM, "WRPWM"},     {RIG_RDPWM, "RDPWM"},     {RIG_WRPSB, "WRPSB"},     {RIG_RDPSB, "RDPSB"},   {RIG_CLRCELL, "CLRCELL"},
    {RIG_CLRAUX, "CLRAUX"},
};

static const char *const conversions[] = {
    [RIG_CONVERT_ADCV] = "ADCV",     [RIG_CONVERT_ADOW] = "ADOW",       [RIG_CONVERT_CVST] = "CVST",     [RIG_CONVERT_ADOL] = "ADOL",
    [RIG_CONVERT_ADAX] = "ADAX",     [RIG_CONVERT_ADAXD] = "ADAXD",     [RIG_CONVERT_AXOW] = "AXOW",     [RIG_CONVERT_AXST] = "AXST",
    [RIG_CONVERT_ADSTAT] = "ADSTAT", [RIG_CONVERT_ADSTATD] = "ADSTATD", [RIG_CONVERT_STATST] = "STATST", [RIG_CONVERT_ADCVAX] = "ADCVAX",
    [RIG_CONVERT_ADCVSC] = "ADCVSC",
};

const char *command_name(uint32_t code)
{
    for (size_t i = 0; i < sizeof commands / sizeof *commands; i++)
        if (commands[i].code == code)
            return commands[i].name;
    return NULL;
}

const char *conversion_name(uint32_t command)
{
    return conversions[command];
}
