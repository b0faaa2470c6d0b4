//! The part of the crate `usb_device` that docs/src names, and nothing more.
//!
//! Endpoints pass every call on to the bus, which is a script of the bench (judge/oracle/src/endpoints.rs).
//! Descriptors are not part of the port: the places that would write one fail loudly.

pub use error::{Result, UsbError};

mod error {
    pub type Result<T> = core::result::Result<T, UsbError>;

    /// The real crate has more variants. docs/src names only `WouldBlock` and passes all others on,
    /// so one variant that carries the endpoint's error number stands for them.
    #[derive(Debug, Clone, Copy, PartialEq, Eq)]
    pub enum UsbError {
        WouldBlock,
        Endpoint(u8),
    }
}

pub mod bus {
    use crate::Result;
    use crate::endpoint::{Endpoint, EndpointDirection};

    pub trait UsbBus: Sized {
        /// The OUT endpoint is asked for one packet.
        fn read(&self, room: &mut [u8]) -> Result<usize>;
        /// The IN endpoint is given one packet.
        fn write(&self, packet: &[u8]) -> Result<usize>;
        fn set_stalled(&self, endpoint: &'static str, stalled: bool);
    }

    pub struct UsbBusAllocator<B: UsbBus> {
        bus: B,
    }

    impl<B: UsbBus> UsbBusAllocator<B> {
        pub fn new(bus: B) -> Self {
            UsbBusAllocator { bus }
        }

        pub fn bus(&self) -> &B {
            &self.bus
        }

        pub fn interface(&self) -> InterfaceNumber {
            InterfaceNumber
        }

        pub fn bulk<D: EndpointDirection>(&self, max_packet_size: u16) -> Endpoint<'_, B, D> {
            Endpoint::new(&self.bus, max_packet_size)
        }
    }

    #[derive(Clone, Copy)]
    pub struct InterfaceNumber;
}

pub mod endpoint {
    use crate::Result;
    use crate::bus::UsbBus;
    use core::marker::PhantomData;

    pub struct In;
    pub struct Out;

    pub trait EndpointDirection {
        const NAME: &'static str;
    }

    impl EndpointDirection for In {
        const NAME: &'static str = "IN";
    }

    impl EndpointDirection for Out {
        const NAME: &'static str = "OUT";
    }

    pub struct Endpoint<'a, B: UsbBus, D: EndpointDirection> {
        bus: &'a B,
        max_packet_size: u16,
        direction: PhantomData<D>,
    }

    impl<'a, B: UsbBus, D: EndpointDirection> Endpoint<'a, B, D> {
        pub(crate) fn new(bus: &'a B, max_packet_size: u16) -> Self {
            Endpoint {
                bus,
                max_packet_size,
                direction: PhantomData,
            }
        }

        pub fn max_packet_size(&self) -> u16 {
            self.max_packet_size
        }

        pub fn stall(&self) {
            self.bus.set_stalled(D::NAME, true);
        }

        pub fn unstall(&self) {
            self.bus.set_stalled(D::NAME, false);
        }
    }

    impl<B: UsbBus> Endpoint<'_, B, Out> {
        pub fn read(&self, room: &mut [u8]) -> Result<usize> {
            self.bus.read(room)
        }
    }

    impl<B: UsbBus> Endpoint<'_, B, In> {
        pub fn write(&self, packet: &[u8]) -> Result<usize> {
            self.bus.write(packet)
        }
    }
}

pub mod control {
    #[derive(Debug, Clone, Copy, PartialEq, Eq)]
    pub enum RequestType {
        Standard,
        Class,
        Vendor,
        Reserved,
    }

    #[derive(Debug, Clone, Copy, PartialEq, Eq)]
    pub enum Recipient {
        Device,
        Interface,
        Endpoint,
        Other,
        Reserved,
    }

    #[derive(Debug, Clone, Copy)]
    pub struct Request {
        pub request_type: RequestType,
        pub recipient: Recipient,
        pub request: u8,
    }

    impl Request {
        /// Takes bmRequestType apart as the real crate does; the caller looks at bit 7, the direction.
        pub fn new(bm_request_type: u8, request: u8) -> Request {
            Request {
                request_type: match (bm_request_type >> 5) & 0b11 {
                    0 => RequestType::Standard,
                    1 => RequestType::Class,
                    2 => RequestType::Vendor,
                    _ => RequestType::Reserved,
                },
                recipient: match bm_request_type & 0b1_1111 {
                    0 => Recipient::Device,
                    1 => Recipient::Interface,
                    2 => Recipient::Endpoint,
                    3 => Recipient::Other,
                    _ => Recipient::Reserved,
                },
                request,
            }
        }
    }
}

pub mod class {
    use crate::Result;
    use crate::bus::UsbBus;
    use crate::control::Request;
    use crate::descriptor::DescriptorWriter;
    use core::marker::PhantomData;

    /// A control request from device to host, and the place where its answer goes.
    pub struct ControlIn<'a, B: UsbBus> {
        request: Request,
        answer: &'a mut Vec<u8>,
        bus: PhantomData<B>,
    }

    impl<'a, B: UsbBus> ControlIn<'a, B> {
        pub fn new(request: Request, answer: &'a mut Vec<u8>) -> Self {
            ControlIn {
                request,
                answer,
                bus: PhantomData,
            }
        }

        pub fn request(&self) -> &Request {
            &self.request
        }

        pub fn accept_with(self, data: &[u8]) -> Result<()> {
            self.answer.extend_from_slice(data);
            Ok(())
        }
    }

    pub trait UsbClass<B: UsbBus> {
        fn get_configuration_descriptors(&self, writer: &mut DescriptorWriter) -> Result<()>;
        fn reset(&mut self);
        fn control_in(&mut self, xfer: ControlIn<B>);
        fn poll(&mut self);
    }
}

pub mod descriptor {
    use crate::Result;
    use crate::bus::{InterfaceNumber, UsbBus};
    use crate::endpoint::{Endpoint, EndpointDirection};

    /// Never built: no bench event asks for a descriptor.
    pub struct DescriptorWriter;

    pub struct StringIndex;

    impl DescriptorWriter {
        pub fn iad(
            &mut self,
            _first_interface: InterfaceNumber,
            _interface_count: u8,
            _class: u8,
            _subclass: u8,
            _protocol: u8,
            _name: Option<StringIndex>,
        ) -> Result<()> {
            unreachable!("descriptors are outside of the port")
        }

        pub fn interface(
            &mut self,
            _number: InterfaceNumber,
            _class: u8,
            _subclass: u8,
            _protocol: u8,
        ) -> Result<()> {
            unreachable!("descriptors are outside of the port")
        }

        pub fn endpoint<B: UsbBus, D: EndpointDirection>(
            &mut self,
            _endpoint: &Endpoint<'_, B, D>,
        ) -> Result<()> {
            unreachable!("descriptors are outside of the port")
        }
    }
}

pub mod class_prelude {
    pub use crate::descriptor::DescriptorWriter;
}
