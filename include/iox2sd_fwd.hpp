/// Declarations of what iox2sd.hpp, iox2sd_config.hpp, iox2sd_log.hpp and iox2sd_conform.hpp
/// define, for headers that only name these types. Not declared here are variants (ports and
/// patterns of any kind: `PortDetails`, `MessagingPattern`), and the ids of one kind of ports.
#ifndef IOX2SD_FWD_HPP
#define IOX2SD_FWD_HPP

#if !defined(__cplusplus) || __cplusplus < 201703L
#error "iox2sd.hpp wants C++17"
#endif

#include <cstddef>
#include <cstdint>

namespace iox2sd {

enum class Status : std::uint32_t;
enum class PatternKind : std::uint64_t;
enum class Role : std::uint64_t;
enum class TypeVariant : std::uint32_t;
enum class MessagePart : std::uint32_t;
enum class BackpressureStrategy : std::uint32_t;
enum class AllocationStrategy : std::uint32_t;
enum class SettingsField : std::uint32_t;
enum class ConfigEntry : std::uint32_t;
enum class ConfigTable : std::uint32_t;
enum class TomlType : std::uint32_t;
enum class SettingKind : std::uint32_t;
enum class Likeness : std::uint32_t;
enum class DataSegmentType : std::uint32_t;
enum class DeregisterNodeState;
enum class Requirement;

template <class T, class E = Status>
class Result;
template <class T>
class List;

namespace detail {

struct KeyContent;
struct ValueContent;
struct FileNameContent;
struct RestrictedContent;
struct ServiceIdKind;
template <Role>
struct IdKind;

}  // namespace detail

template <std::size_t Capacity>
class Text;
template <class Content, std::size_t Capacity>
class SemanticString;
using AttributeKey = SemanticString<detail::KeyContent, 64>;
using AttributeValue = SemanticString<detail::ValueContent, 256>;
using FileName = SemanticString<detail::FileNameContent, 255>;
using RestrictedFileName = SemanticString<detail::RestrictedContent, 64>;
class Path; class FilePath; class ServiceName; class ServiceHash; struct TextError;

template <class Kind>
class UniqueId;
using UniqueServiceId = UniqueId<detail::ServiceIdKind>;
class UniqueNodeId; class UniquePortId;

class Attribute; class AttributeSet; class AttributeVerifier; struct AttributeVerificationError;
class TypeDetail; struct MessageTypeDetails; struct Layout; struct MessagePlaces;
struct IncompatibleTypes; struct Duration; struct EventId; struct GlobalSettings;
struct PublishSubscribeSettings; struct EventSettings; struct RequestResponseSettings;
struct BlackboardSettings; struct SettingsError; struct PublishSubscribeStaticConfig;
struct RequestResponseStaticConfig; struct BlackboardStaticConfig; class StaticConfig;
struct Requirements; struct OpenError;
using EventStaticConfig = EventSettings;

struct PublisherDetails; struct SubscriberDetails; struct NotifierDetails; struct ListenerDetails;
struct ClientDetails; struct ServerDetails; struct ReaderDetails; struct WriterDetails;
struct ContainerHandle; struct Capacities; struct PublishSubscribeCapacities;
struct EventCapacities; struct RequestResponseCapacities; struct BlackboardCapacities;
struct PortRoles; struct DeadNodeRemoval; class ServiceNumbers; class Service; struct ScriptRun;
using DynamicConfig = Service;

struct ConfigTexts; struct Config; struct ConfigFile; struct ConfigFault; struct ConfigError;
struct ConfigWriteError; struct UnknownKey;

struct LogVerdict; struct Configuration; class Configurations; class Recorder;
class LogWriter; class LogCaller; class LogToken; class LogCommand; class LogReply;

}  // namespace iox2sd

#endif
