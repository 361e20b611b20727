/// `std::format` for what iox2sd.hpp writes by `<<`: texts, ids, statuses, roles, patterns, fields
/// and errors, with the options of a text, as "{:>40}". It stands apart from iox2sd.hpp, since
/// `<format>` takes long to compile.
#ifndef IOX2SD_FORMAT_HPP
#define IOX2SD_FORMAT_HPP

#if !defined(__cplusplus) || __cplusplus < 202002L || !__has_include(<format>)
#error "iox2sd_format.hpp wants C++20 and its <format>"
#endif

#include <format>

#include "iox2sd.hpp"

/// Formats values as the texts that they are or have.
template <class Value>
    requires iox2sd::detail::is_written<Value>
struct std::formatter<Value> : std::formatter<std::string_view> {
    template <class Context>
    auto format(const Value& value, Context& context) const {
        const auto words = iox2sd::detail::written(value);
        return std::formatter<std::string_view>::format(words, context);
    }
};

#endif
