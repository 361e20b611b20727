use crate::display::{choices, number};

choices! {
    /// What a sender does where a receiver's buffer is full and may not overflow.
    ///
    /// ```
    /// use iox2sd::config::{BackpressureStrategy, PublishSubscribe};
    ///
    /// let strategy = PublishSubscribe::default().backpressure_strategy;
    /// assert_eq!(strategy, BackpressureStrategy::RetryUntilDelivered);
    /// assert_eq!(strategy.to_string(), "RetryUntilDelivered");
    /// ```
    BackpressureStrategy of u32 in "config" {
        /// It tries again until the receiver can take the message.
        RetryUntilDelivered = IOX2SD_BACKPRESSURE_RETRY_UNTIL_DELIVERED;
        /// It skips this receiver.
        DiscardData = IOX2SD_BACKPRESSURE_DISCARD_DATA;
    }
}

choices! {
    /// How a data segment grows for messages whose length is known only at run time.
    ///
    /// ```
    /// use iox2sd::config::{AllocationStrategy, PublishSubscribe};
    ///
    /// let strategy = PublishSubscribe::default().publisher_allocation_strategy;
    /// assert_eq!(strategy, AllocationStrategy::Static);
    /// assert_eq!(AllocationStrategy::PowerOfTwo.to_string(), "PowerOfTwo");
    /// ```
    AllocationStrategy of u32 in "config" {
        /// By as much as the message needs.
        BestFit = IOX2SD_ALLOCATION_BEST_FIT;
        /// To the next power of two.
        PowerOfTwo = IOX2SD_ALLOCATION_POWER_OF_TWO;
        /// It does not grow.
        Static = IOX2SD_ALLOCATION_STATIC;
    }
}

choices! {
    /// Whether a port's data segment may grow.
    ///
    /// ```
    /// use iox2sd::config::DataSegmentType;
    ///
    /// assert_ne!(DataSegmentType::Dynamic, DataSegmentType::Static);
    /// assert_eq!(DataSegmentType::Dynamic.to_string(), "Dynamic");
    /// ```
    DataSegmentType of u32 in "config" {
        /// It may be replaced by a larger one.
        Dynamic = IOX2SD_SEGMENT_DYNAMIC;
        /// It keeps its size.
        Static = IOX2SD_SEGMENT_STATIC;
    }
}

number! {
    /// The number by which listeners distinguish the events of one service.
    ///
    /// ```
    /// use iox2sd::config::EventId;
    /// assert_eq!(EventId::new(9).as_value(), 9);
    /// ```
    EventId of usize in "config", as_value
}
