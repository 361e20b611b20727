//! Stands in for iceoryx2 0.9.3: what `iox2sd-against` calls of it, with its signatures.

pub mod config {
    //! The configuration.

    pub use iox2sd::config::{Defaults, Global};

    /// All settings.
    #[derive(Debug)]
    pub struct Config {
        pub global: Global,
        pub defaults: Defaults,
    }

    impl Config {
        /// The settings of this process.
        #[must_use]
        pub fn global_config() -> &'static Self {
            static SETTINGS: std::sync::OnceLock<Config> = std::sync::OnceLock::new();
            SETTINGS.get_or_init(Config::default)
        }
    }

    impl Default for Config {
        fn default() -> Self {
            #[cfg_attr(not(feature = "differs"), allow(unused_mut))]
            let mut settings = iox2sd::config::Config::default();
            #[cfg(feature = "differs")]
            {
                settings.defaults.event.max_listeners += 1;
            }
            Config {
                global: settings.global,
                defaults: settings.defaults,
            }
        }
    }
}

pub mod service {
    //! Parts of a service.

    pub use iox2sd::service::{attribute, service_hash, service_name};

    pub mod header {
        //! What stands before each message. These have no fields of the middleware's.

        pub mod publish_subscribe {
            //! Of samples.

            /// Of a sample.
            #[derive(Debug)]
            pub struct Header(pub u64);
        }

        pub mod request_response {
            //! Of requests and responses.

            /// Of a request.
            #[derive(Debug)]
            pub struct RequestHeader(pub u64);

            /// Of a response.
            #[derive(Debug)]
            pub struct ResponseHeader(pub u64);
        }
    }

    pub mod static_config {
        //! The description of a service.

        pub use iox2sd::static_config::messaging_pattern;

        pub mod message_type_details {
            //! The details of types.

            pub use iox2sd::static_config::message_type_details::{TypeName, TypeVariant};

            /// The details of a type.
            #[derive(Debug)]
            pub struct TypeDetail(iox2sd::prelude::TypeDetail);

            impl TypeDetail {
                #[must_use]
                pub fn new<T>(variant: TypeVariant) -> Self {
                    let detail = iox2sd::prelude::TypeDetail::new::<T>(variant);
                    TypeDetail(detail.expect("the name of a plain type fits"))
                }

                #[must_use]
                pub fn type_name(&self) -> &TypeName {
                    self.0.type_name()
                }

                #[must_use]
                pub fn size(&self) -> usize {
                    self.0.size()
                }

                #[must_use]
                pub fn alignment(&self) -> usize {
                    self.0.alignment()
                }
            }
        }
    }
}

pub mod prelude {
    //! What a program begins with.

    pub use crate::config::Config;
    pub use iox2sd::prelude::{
        AttributeKey, AttributeSpecifier, AttributeValue, AttributeVerifier, CallbackProgression,
        ServiceName, StaticConfig,
    };

    use iox2sd::prelude::UniqueServiceId;
    use iox2sd::service_hash::ServiceHashError;
    use std::cell::RefCell;

    thread_local! {
        /// The services of this process.
        static SERVICES: RefCell<Vec<StaticConfig>> = const { RefCell::new(Vec::new()) };
    }

    pub mod local {
        //! Services of one process.

        /// A service of this process.
        #[derive(Debug)]
        pub struct Service;
    }

    /// What a list has of a service.
    #[derive(Debug)]
    pub struct ServiceDetails {
        pub static_details: StaticConfig,
    }

    /// Services that can be listed.
    pub trait Service {
        fn list<F: FnMut(ServiceDetails) -> CallbackProgression>(
            config: &Config,
            callback: F,
        ) -> Result<(), ServiceHashError>;
    }

    impl Service for local::Service {
        fn list<F: FnMut(ServiceDetails) -> CallbackProgression>(
            _config: &Config,
            mut callback: F,
        ) -> Result<(), ServiceHashError> {
            for static_details in SERVICES.with(|services| services.borrow().clone()) {
                if callback(ServiceDetails { static_details }) == CallbackProgression::Stop {
                    break;
                }
            }
            Ok(())
        }
    }

    /// Makes a node.
    #[derive(Debug, Default)]
    pub struct NodeBuilder;

    impl NodeBuilder {
        #[must_use]
        pub fn new() -> Self {
            NodeBuilder
        }

        pub fn create<S: Service>(self) -> Result<Node, ServiceHashError> {
            Ok(Node)
        }
    }

    /// A node.
    #[derive(Debug)]
    pub struct Node;

    impl Node {
        #[must_use]
        pub fn service_builder(&self, name: &ServiceName) -> Builder {
            Builder(name.clone())
        }
    }

    /// Makes a service of any pattern.
    #[derive(Debug)]
    pub struct Builder(ServiceName);

    /// Makes a service.
    #[derive(Debug)]
    pub struct Creator(Result<StaticConfig, ServiceHashError>);

    impl Builder {
        #[must_use]
        pub fn event(self) -> Creator {
            let settings = iox2sd::config::Config::default();
            let id = UniqueServiceId::new(1, 0, 0, 1);
            Creator(StaticConfig::new_event(&self.0, &settings, id))
        }

        #[must_use]
        pub fn publish_subscribe<T>(self) -> Creator {
            let settings = iox2sd::config::Config::default();
            let id = UniqueServiceId::new(1, 0, 0, 1);
            Creator(StaticConfig::new_publish_subscribe(&self.0, &settings, id))
        }
    }

    impl Creator {
        pub fn create(self) -> Result<PortFactory, ServiceHashError> {
            let service = self.0?;
            SERVICES.with(|services| services.borrow_mut().push(service));
            Ok(PortFactory)
        }
    }

    /// A service that was made.
    #[derive(Debug)]
    pub struct PortFactory;
}
